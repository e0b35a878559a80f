//! Finds the static library and links it: beside this folder in `lib` where
//! the crate is vendored, or in `target/staticlib` at the repository's root.

use std::env;
use std::path::Path;

fn main() {
    let manifest = env::var("CARGO_MANIFEST_DIR").unwrap_or_default();
    let manifest = Path::new(&manifest);
    let places = [("../lib", "mtr"), ("../../target/staticlib", "abi")];
    for (folder, name) in places {
        let folder = manifest.join(folder);
        let archive = folder.join(format!("lib{name}.a"));
        if archive.is_file() {
            println!("cargo::rerun-if-changed={}", archive.display());
            println!("cargo::rustc-link-search=native={}", folder.display());
            println!("cargo::rustc-link-lib=static={name}");
            return;
        }
    }
    println!(
        "cargo::error=the static library is missing: ../lib/libmtr.a beside the crate, or target/staticlib/libabi.a (run `tools/build.sh abi` at the repository's root)"
    );
}
