//! Where the result goes. A named file is replaced at the end or not at all,
//! also if the program is killed: until then the result stands in a file
//! beside it, which the next run takes away.

use std::ffi::OsStr;
use std::fs::{self, File};
use std::io::{self, BufWriter, Write};
use std::path::{Path, PathBuf};

use super::{standard, told, Stop};

/// What is written is held up to so many bytes.
const HELD: usize = 1 << 16;

pub enum Output {
    Standard(BufWriter<io::Stdout>),
    /// A file that is not a plain one.
    Device(BufWriter<File>, PathBuf),
    Replacing(Part),
}

/// A result that is to replace a file.
pub struct Part {
    file: BufWriter<File>,
    temporary: PathBuf,
    path: PathBuf,
    done: bool,
}

impl Output {
    pub fn open(path: Option<&Path>) -> Result<Output, Stop> {
        let Some(path) = path else {
            if standard::output_closed() {
                return Err(Stop::bad("standard output: it is closed".into()));
            }
            let out = BufWriter::with_capacity(HELD, io::stdout());
            return Ok(Output::Standard(out));
        };
        let failed = |e: io::Error| Stop::bad(format!("{}: {}", path.display(), told(&e)));
        // Behind a link the file it leads to is replaced.
        let path = fs::canonicalize(path).unwrap_or_else(|_| path.to_path_buf());
        match fs::metadata(&path) {
            Ok(old) if !old.is_file() => {
                let file = File::options().write(true).open(&path).map_err(failed)?;
                Ok(Output::Device(BufWriter::with_capacity(HELD, file), path))
            }
            _ => Part::new(path).map(Output::Replacing).map_err(failed),
        }
    }

    fn name(&self) -> String {
        match self {
            Output::Standard(_) => "standard output".into(),
            Output::Device(_, path) => path.display().to_string(),
            Output::Replacing(part) => part.path.display().to_string(),
        }
    }

    /// Why the result could not be written.
    pub fn failed(&self, e: &io::Error) -> Stop {
        match (self, e.kind()) {
            (Output::Standard(_), io::ErrorKind::BrokenPipe) => Stop::Closed,
            _ => Stop::bad(format!("{}: {}", self.name(), told(e))),
        }
    }

    /// Everything was written.
    pub fn finish(mut self) -> Result<(), Stop> {
        let finished = self.flush().and_then(|()| match &mut self {
            Output::Replacing(part) => part.replace(),
            _ => Ok(()),
        });
        finished.map_err(|e| self.failed(&e))
    }
}

impl Write for Output {
    fn write(&mut self, bytes: &[u8]) -> io::Result<usize> {
        match self {
            Output::Standard(out) => out.write(bytes),
            Output::Device(file, _) => file.write(bytes),
            Output::Replacing(part) => part.file.write(bytes),
        }
    }

    fn flush(&mut self) -> io::Result<()> {
        match self {
            Output::Standard(out) => out.flush(),
            Output::Device(file, _) => file.flush(),
            Output::Replacing(part) => part.file.flush(),
        }
    }
}

impl Part {
    fn new(path: PathBuf) -> io::Result<Part> {
        let name = path.file_name().unwrap_or_default().to_os_string();
        let folder = match path.parent() {
            Some(folder) if folder != Path::new("") => folder.to_path_buf(),
            _ => PathBuf::from("."),
        };
        sweep(&folder, &name);
        // A file that may not be written is not replaced either.
        let old = match File::options().write(true).open(&path) {
            Ok(file) => Some(file.metadata()?.permissions()),
            Err(e) if e.kind() == io::ErrorKind::NotFound => None,
            Err(e) => return Err(e),
        };
        let temporary = folder.join(part_name(&name, std::process::id()));
        let file = File::create_new(&temporary)?;
        let part = Part {
            file: BufWriter::with_capacity(HELD, file),
            temporary,
            path,
            done: false,
        };
        // Held until the end, so that no other run takes it away. A file system
        // without locks leaves that to the process's number.
        let _ = part.file.get_ref().try_lock();
        if let Some(permissions) = old {
            part.file.get_ref().set_permissions(permissions)?;
        }
        Ok(part)
    }

    fn replace(&mut self) -> io::Result<()> {
        self.file.get_ref().sync_all()?;
        fs::rename(&self.temporary, &self.path)?;
        self.done = true;
        Ok(())
    }
}

impl Drop for Part {
    fn drop(&mut self) {
        if !self.done {
            let _ = fs::remove_file(&self.temporary);
        }
    }
}

/// `.NAME.PROCESS.part`.
fn part_name(name: &OsStr, process: u32) -> std::ffi::OsString {
    let mut part = std::ffi::OsString::from(".");
    part.push(name);
    part.push(format!(".{process}.part"));
    part
}

/// Takes away what runs that were killed have left of this result: the process
/// is gone and holds no lock.
fn sweep(folder: &Path, name: &OsStr) {
    let Ok(entries) = fs::read_dir(folder) else {
        return;
    };
    for entry in entries.flatten() {
        let found = entry.file_name();
        let Some(process) = process_of(&found, name) else {
            continue;
        };
        let lives = Path::new("/proc").join(process.to_string()).exists();
        let held = File::open(entry.path()).is_ok_and(|file| file.try_lock().is_err());
        if !lives && !held {
            let _ = fs::remove_file(entry.path());
        }
    }
}

/// The process that a file is a part of the result by.
fn process_of(found: &OsStr, name: &OsStr) -> Option<u32> {
    let found = found.to_str()?;
    let rest = found.strip_prefix('.')?.strip_prefix(name.to_str()?)?;
    rest.strip_prefix('.')?.strip_suffix(".part")?.parse().ok()
}

/// Writes a whole result.
pub fn write_all(path: Option<&Path>, bytes: &[u8]) -> Result<(), Stop> {
    let mut output = Output::open(path)?;
    output.write_all(bytes).map_err(|e| output.failed(&e))?;
    output.finish()
}
