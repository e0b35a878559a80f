//! What is read.

use std::fs::File;
use std::io::{self, Read};
use std::path::Path;

use journal::progress::Progress;

use super::{standard, told, Stop};

/// The input as messages name it.
pub fn name(path: Option<&Path>) -> String {
    match path {
        Some(path) => path.display().to_string(),
        None => "standard input".into(),
    }
}

/// Reads a file or standard input to its end.
pub fn read(path: Option<&Path>, progress: &mut Progress) -> Result<Vec<u8>, Stop> {
    let failed = |e: io::Error| Stop::bad(format!("{}: {}", name(path), told(&e)));
    progress.doing("reading");
    match path {
        None if standard::input_closed() => Err(Stop::bad("standard input: it is closed".into())),
        None => fill(io::stdin().lock(), None, progress).map_err(failed),
        Some(path) => {
            let file = File::open(path).map_err(failed)?;
            let size = file.metadata().map_err(failed)?.len();
            fill(file, Some(size), progress).map_err(failed)
        }
    }
}

fn fill(mut r: impl Read, size: Option<u64>, progress: &mut Progress) -> io::Result<Vec<u8>> {
    const PIECE: u64 = 1 << 20;
    let mut bytes = Vec::new();
    loop {
        let had = bytes.len() as u64;
        r.by_ref().take(PIECE).read_to_end(&mut bytes)?;
        if bytes.len() as u64 == had {
            return Ok(bytes);
        }
        progress.show(bytes.len() as u64, size);
    }
}
