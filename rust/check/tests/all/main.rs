//! The static library, the programs, the documents and the sources, in one program.

mod blocks;
mod calls;
mod corpus;
mod documents;
mod ends;
mod examples;
mod guarantee;
mod hostile;
mod imports;
mod meter;
mod old_journals;
mod pages;
mod profile;
mod program;
mod readings;
mod replay;
mod stack;
mod statements;
mod usage;
mod usage_program;
mod why;
mod why_program;
