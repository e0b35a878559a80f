//! Tests of the journal tool from outside, in one program.

mod best_effort;
mod cases;
mod change;
mod command;
mod common;
mod documents;
mod draw;
mod generated;
mod output;
mod part;
mod priorities;
mod stats;
mod text;
mod view;
mod why;

#[path = "../../examples/cases/answer.rs"]
mod answer;
#[path = "../../examples/cases/broken.rs"]
mod broken;
#[path = "../../examples/cases/controller.rs"]
mod controller;
#[path = "../../examples/cases/files.rs"]
mod files;
#[path = "../../examples/cases/late.rs"]
mod late;
#[path = "../../examples/cases/raised.rs"]
mod raised;
#[path = "../../examples/cases/spare.rs"]
mod spare;
#[path = "../../examples/cases/table.rs"]
mod table;
