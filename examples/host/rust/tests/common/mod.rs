//! What the tests share: folders, the compiler of the host in C, and a share by its meaning.

use std::path::{Path, PathBuf};
use std::process::{Command, Output};

pub fn root() -> PathBuf {
    PathBuf::from(env!("CARGO_MANIFEST_DIR")).join("../../..")
}

pub fn scratch(name: &str) -> PathBuf {
    Path::new(env!("CARGO_TARGET_TMPDIR")).join(name)
}

/// Compiles as the first comment of the host in C says, with every warning an error, at this level of optimisation.
pub fn compiled(source: &Path, name: &str, level: &str) -> PathBuf {
    let program = scratch(name);
    let done = Command::new("cc")
        .args(["-std=c11", level, "-Wall", "-Wextra", "-Werror"])
        .args(["-pedantic", "-I"])
        .arg(root().join("include"))
        .arg(source)
        .arg(root().join("target/staticlib/libabi.a"))
        .arg("-o")
        .arg(&program)
        .output()
        .unwrap();
    assert!(
        done.status.success(),
        "{}",
        String::from_utf8_lossy(&done.stderr)
    );
    program
}

pub fn c_source() -> PathBuf {
    root().join("examples/host/c/controller.c")
}

pub fn run(host: &Path, words: &[&str]) -> Output {
    Command::new(host).args(words).output().unwrap()
}

/// Of the whole numbers up to 1000 the one whose product with the whole is nearest to 1000 × part, the even one of two.
pub fn thousandths(part: i64, whole: i64) -> i64 {
    let distance = |share: i64| (share * whole - 1000 * part).abs();
    (0..=1000)
        .min_by_key(|&share| (distance(share), share % 2))
        .unwrap()
}
