//! Writes docs/statements.txt: what the theorems say that docs/PROOFS.md names.

use std::fs;
use std::process::ExitCode;

use check::program::root;
use check::statements::{theorems, written, Proofs, FILE};

fn main() -> ExitCode {
    match write() {
        Ok(count) => {
            println!("{FILE}: {count} statements written");
            ExitCode::SUCCESS
        }
        Err(text) => {
            eprintln!("statements: {text}");
            ExitCode::FAILURE
        }
    }
}

fn write() -> Result<usize, String> {
    let page = fs::read_to_string(root().join("docs/PROOFS.md"));
    let theorems = theorems(&page.map_err(|error| format!("docs/PROOFS.md: {error}"))?);
    let parts = Proofs::new(root().join("crates")).parts(&theorems);
    for theorem in &theorems {
        if !parts[0].iter().any(|(named, _)| named == theorem) {
            let (file, name) = theorem;
            return Err(format!("{file} does not declare {name}, or not once"));
        }
    }
    fs::write(root().join(FILE), written(&parts)).map_err(|error| format!("{FILE}: {error}"))?;
    Ok(theorems.len())
}
