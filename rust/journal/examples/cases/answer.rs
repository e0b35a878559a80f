//! What the arguments ask for.

use crate::{files, table};

/// What is printed for the arguments, or how to use them.
pub fn answer(arguments: &[&str]) -> Result<String, String> {
    match arguments {
        [] => Ok(table::table()),
        ["--broken"] => Ok(files::broken_picture()),
        ["--renew"] => files::renew().map_err(|e| e.to_string()),
        _ => Err("usage: cases [--broken | --renew]".into()),
    }
}
