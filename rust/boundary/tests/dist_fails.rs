//! `dist.sh` in small repositories: what it says where something is missing, and an earlier folder is then as it was; what it writes of the
//! crate's manifest and of the gate.

mod common;

use common::{dist, files, folder, has, printed, run, said};
use std::fs;
use std::path::{Path, PathBuf};
use std::process::Command;

/// A repository with what the script takes.
struct Repository {
    above: PathBuf,
    root: PathBuf,
    target: PathBuf,
}

const FOLDERS: &str = "target/staticlib target/bin target/cargo/release docs include rust/mtr/src
    examples/host/c examples/host/rust/src examples/priorities";

const FILES: &str =
    "dist.sh include/mtr.h rust/mtr/build.rs rust/mtr/Cargo.toml examples/host/rust/Cargo.toml
    docs/PROOFS.md docs/RULE.md docs/mtrrun.1 docs/mtrwhy.1 docs/mtrsum.1 docs/mtrask.1";

const ARCHIVE: &str = "target/staticlib/libabi.a";

/// What the script packs of these, and the gate tests: in the order in which it names them.
const BUILT: [(&str, &str); 6] = [
    (ARCHIVE, "lib/libmtr.a"),
    ("target/cargo/release/journal", "bin/journal"),
    ("target/bin/mtrask", "bin/mtrask"),
    ("target/bin/mtrrun", "bin/mtrrun"),
    ("target/bin/mtrsum", "bin/mtrsum"),
    ("target/bin/mtrwhy", "bin/mtrwhy"),
];

impl Repository {
    fn new(name: &str) -> Repository {
        let above = folder(name);
        let root = above.join("repository");
        for part in FOLDERS.split_whitespace() {
            fs::create_dir_all(root.join(part)).unwrap();
        }
        for part in FILES.split_whitespace() {
            fs::copy(boundary::root().join(part), root.join(part)).unwrap();
        }
        for (file, name) in BUILT {
            fs::write(root.join(file), name).unwrap();
        }
        fs::copy(common::archive(), root.join(ARCHIVE)).unwrap();
        let target = above.join("dist");
        Repository {
            above,
            root,
            target,
        }
    }

    /// Fills the folder; what the script says on the way, and what it wrote.
    fn filled(&self, name: &str) -> (String, String) {
        let output = dist(&self.root, &self.target);
        assert!(output.status.success(), "{}", said(&output));
        let told = String::from_utf8(output.stderr).unwrap();
        (told, fs::read_to_string(self.target.join(name)).unwrap())
    }

    /// The status is 1, the script says why, and the folder is as it was.
    fn refuses(&self, text: &str) {
        let held = |folder: &Path| folder.exists().then(|| files(folder));
        let earlier = held(&self.target);
        let output = dist(&self.root, &self.target);
        assert_eq!(output.status.code(), Some(1), "{}", said(&output));
        assert!(said(&output).contains(text), "{}", said(&output));
        assert_eq!(held(&self.target), earlier);
        self.nothing_beside();
    }

    fn nothing_beside(&self) {
        let entries = fs::read_dir(&self.above).unwrap();
        let mut beside: Vec<_> = entries.map(|e| e.unwrap().file_name()).collect();
        beside.retain(|name| name != "repository" && name != "dist");
        assert!(beside.is_empty(), "{beside:?}");
    }
}

/// rt ci refuses a checkout in which another one stands.
impl Drop for Repository {
    fn drop(&mut self) {
        let _ = fs::remove_dir_all(self.root.join(".git"));
    }
}

#[test]
fn no_library() {
    let repository = Repository::new("dist-no-library");
    let archive = repository.root.join(ARCHIVE);
    fs::write(&archive, "no archive").unwrap();
    repository.refuses("nm can't read");

    // An object that needs more than the mem functions.
    let needy = "int puts(const char *); int f(void) { return puts(\"\"); }";
    fs::write(repository.root.join("needy.c"), needy).unwrap();
    let mut compile = Command::new("cc");
    compile.args(["-c", "needy.c", "-o", "needy.o"]);
    printed(compile.current_dir(&repository.root));
    fs::remove_file(&archive).unwrap();
    let mut pack = Command::new("ar");
    pack.args(["rc", ARCHIVE, "needy.o"]);
    printed(pack.current_dir(&repository.root));
    repository.refuses("needs puts");
}

/// Something is missing, before or once the folder is being filled, with an earlier one in place. A second run replaces that whole, and
/// leaves one alone that the script did not fill.
#[test]
fn an_earlier_folder() {
    let repository = Repository::new("dist-earlier");
    repository.filled("VERSION");
    let missing = BUILT.map(|(file, _)| (file, format!("{file} is missing")));
    let unfilled = ["include/mtr.h", "docs/mtrwhy.1"].map(|file| (file, "can't fill".to_string()));
    for (part, text) in missing.into_iter().chain(unfilled) {
        let path = repository.root.join(part);
        let held = fs::read(&path).unwrap();
        fs::remove_file(&path).unwrap();
        repository.refuses(&text);
        fs::write(path, held).unwrap();
    }
    let before = files(&repository.target);
    fs::write(repository.target.join("lib/stale.a"), "").unwrap();
    repository.filled("VERSION");
    assert_eq!(files(&repository.target), before);
    repository.nothing_beside();
    fs::remove_file(repository.target.join("VERSION")).unwrap();
    repository.refuses("has no VERSION");
}

/// In the crate's manifest nothing is left of what its tests need.
#[test]
fn the_manifest() {
    let repository = Repository::new("dist-manifest");
    let package = "[package]\nname = \"mtr\"\nversion = \"1.2.3\"\n\n";
    let tests = "[dev-dependencies]\nmodel = { path = \"../model\" }\n\n[[test]]\nname = \"a\"\n\n";
    let library = "[lib]\ndoctest = false\n";
    let manifest = repository.root.join("rust/mtr/Cargo.toml");
    fs::write(&manifest, [package, tests, library].concat()).unwrap();
    let (_, filled) = repository.filled("rust/Cargo.toml");
    assert_eq!(filled, [package, library].concat());
    fs::write(&manifest, library).unwrap();
    repository.refuses("has no version");
}

/// What PROVED.md says of the gate.
const RUN: &str = "5 passed, 0 failed";
const NOT: &str = "was not run for this tree";

impl Repository {
    fn git(&self, words: &[&str]) -> String {
        let mut git = Command::new("git");
        git.env("GIT_CONFIG_GLOBAL", "/dev/null");
        git.args(["-c", "user.name=a", "-c", "user.email=a@b", "-C"]);
        printed(git.arg(&self.root).args(words))
    }

    /// Makes a commit of all but target/, and gives its number.
    fn commit(&self) -> String {
        self.git(&["init", "--quiet"]);
        fs::write(self.root.join(".gitignore"), "target/\n").unwrap();
        self.git(&["add", "."]);
        self.git(&["commit", "--quiet", "-m", "a"]);
        self.git(&["rev-parse", "HEAD"]).trim().to_string()
    }

    /// The sums of what is packed, as the gate writes them.
    fn sums(&self) -> String {
        let mut sums = Command::new("sha256sum");
        sums.args(BUILT.map(|(file, _)| file));
        printed(sums.current_dir(&self.root))
    }

    /// Where the gate counted, saw this and tested what has these sums, PROVED.md says this of it; what the script said on the way.
    fn told(&self, saw: &str, sums: &str, text: &str) -> String {
        let gate = format!("{RUN}\n{saw}\n{sums}");
        fs::write(self.root.join("target/gate.txt"), gate).unwrap();
        let (told, page) = self.filled("PROVED.md");
        assert!(page.contains(&format!("| gate | {text} |\n")), "{page}");
        told
    }
}

/// What the gate counted, if it saw the commit that stands there and no change to its files.
#[test]
fn the_gate() {
    let repository = Repository::new("dist-gate");
    let sums = repository.sums();
    let told = |saw: &str, text: &str| assert_eq!(repository.told(saw, &sums, text), "");

    // Where git says nothing, it was not run for the tree, whatever stands there.
    fs::write(repository.root.join(".git"), "no repository").unwrap();
    let (_, page) = repository.filled("PROVED.md");
    assert!(page.contains(&format!("| gate | {NOT} |\n")), "{page}");
    told("tree: unknown", NOT);
    fs::remove_file(repository.root.join(".git")).unwrap();

    if !has("git") {
        return;
    }
    let commit = repository.commit();
    // A tag changes nothing; a change does, and so does a gate that saw one.
    repository.git(&["tag", "-a", "1.0", "-m", "a"]);
    let (clean, changed) = (format!("tree: {commit}"), format!("tree: {commit}-dirty"));
    told(&clean, RUN);
    told(&changed, NOT);
    told("", NOT);
    let header = repository.root.join("include/mtr.h");
    let held = fs::read(&header).unwrap();
    fs::write(&header, [&held[..], b"\n"].concat()).unwrap();
    told(&clean, NOT);
    told(&changed, NOT);
    fs::write(&header, held).unwrap();
    // The same files in a later commit are not what the gate saw.
    repository.git(&["commit", "--quiet", "--allow-empty", "-m", "b"]);
    told(&clean, NOT);
}

/// The commit is the one that the gate saw, and what is packed is not all that it tested.
#[test]
fn untested_files() {
    if !has("git") {
        return;
    }
    let repository = Repository::new("dist-untested");
    let saw = format!("tree: {}", repository.commit());
    let sums = repository.sums();
    // The script names the files in one line, and so does the page.
    let not = |sums: &str, files: &str| {
        let text = format!("was not run for these files: {files}");
        let line = repository.told(&saw, sums, &text);
        let expected = format!("dist.sh: the gate {text}; PROVED.md says so, without its count\n");
        assert_eq!(line, expected);
    };
    let all = BUILT.map(|(_, name)| name).join(" ");
    assert_eq!(repository.told(&saw, &sums, RUN), "");
    // A gate that took no sums, as those before this one.
    not("", &all);
    for (file, name) in BUILT {
        // A file whose sum is not there.
        let others: Vec<&str> = sums.lines().filter(|l| !l.ends_with(file)).collect();
        not(&others.join("\n"), name);
    }
    // The sum of one file stands for no other.
    let (archive, _) = sums.split_once(' ').unwrap();
    not(&format!("{archive}  target/bin/mtrrun\n"), &all);
    // Files that are not those that were tested. An archive stays one with a byte more.
    for (file, _) in BUILT {
        let file = repository.root.join(file);
        let held = fs::read(&file).unwrap();
        fs::write(&file, [&held[..], b"\n"].concat()).unwrap();
    }
    not(&sums, &all);
}

#[test]
fn usage() {
    let script = boundary::root().join("dist.sh");
    for words in [&["--no-build", "a", "b"][..], &["--other"]] {
        let usage = run(Command::new(&script).args(words));
        assert_eq!(usage.status.code(), Some(2), "{}", said(&usage));
    }
}
