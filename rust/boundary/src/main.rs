//! `boundary`: writes the C header and the Rust declarations of the exported
//! functions. `boundary --check`: says whether they are up to date.

#![forbid(unsafe_code)]

use std::env;
use std::fs;
use std::process::ExitCode;

fn main() -> ExitCode {
    let arguments: Vec<String> = env::args().skip(1).collect();
    let check = match &arguments[..] {
        [] => false,
        [only] if only == "--check" => true,
        _ => {
            eprintln!("usage: boundary [--check]");
            return ExitCode::from(2);
        }
    };
    match run(check) {
        Ok(()) => ExitCode::SUCCESS,
        Err(text) => {
            eprintln!("boundary: {text}");
            ExitCode::FAILURE
        }
    }
}

fn run(check: bool) -> Result<(), String> {
    let root = boundary::root();
    let files = boundary::generate(&root).map_err(|e| e.to_string())?;
    for (path, text) in files {
        let file = root.join(path);
        let same = fs::read_to_string(&file).is_ok_and(|now| now == text);
        if same {
            println!("{path}: up to date");
        } else if check {
            return Err(format!("{path} is out of date: run {}", boundary::COMMAND));
        } else {
            fs::write(&file, text).map_err(|e| format!("{path}: {e}"))?;
            println!("{path}: written");
        }
    }
    Ok(())
}
