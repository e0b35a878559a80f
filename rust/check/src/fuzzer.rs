//! The entries of the builds with coverage: that of libFuzzer, with `mtrrun`, `mtrwhy`, `mtrsum` and `mtrask` as functions, and
//! that of `fuzz/coverage.sh`.
//!
//! `fuzz/build.sh` compiles the programs' proved modules with coverage and renames their `main` and what they call of the
//! system to the functions named here, so that they run within the fuzzer.

use crate::attack::{Attack, ROUNDS, SEED};
use crate::journal::{case, replay, Case};
use crate::table_recipe::compared;
use crate::usage;
use crate::why::{cut, failing, questions, sorts};
use core::ffi::{c_char, c_int, CStr};
use model::usage::{ask, counts, lines, Question};
use samples::random::{any_question, damage_summary, Rng};
use std::cell::RefCell;

extern "C" {
    fn mtrrun_main() -> c_int;
    fn mtrwhy_main() -> c_int;
    fn mtrsum_main() -> c_int;
    fn mtrask_main() -> c_int;
    fn rattle_set_errno(error: c_int);
}

const EIO: c_int = 5;

/// The file's name, and the descriptor that it gets.
const NAME: &str = "journal";
const FILE: c_int = 3;

/// What a program was given, and what it has read and written.
#[derive(Default)]
struct Pipes {
    words: Vec<String>,
    /// What it may read from: 0, or nothing until the journal is opened.
    open: Option<c_int>,
    input: Vec<u8>,
    /// Whether the read past the input fails.
    fails: bool,
    taken: usize,
    output: Vec<u8>,
    said: Vec<u8>,
    pieces: [usize; 2],
    turn: usize,
}

impl Pipes {
    /// How much of `length` goes through at a time.
    fn piece(&mut self, length: usize) -> usize {
        self.turn += 1;
        length.min(self.pieces[self.turn % 2])
    }
}

thread_local! {
    static PIPES: RefCell<Pipes> = RefCell::default();
}

/// # Safety
///
/// `to` is valid for writes of `length` bytes.
#[no_mangle]
unsafe extern "C" fn fuzz_read(file: c_int, to: *mut u8, length: usize) -> isize {
    PIPES.with_borrow_mut(|p| {
        assert_eq!(p.open, Some(file));
        let taken = p.taken;
        let count = p.piece(length).min(p.input.len() - taken);
        if count == 0 && length > 0 && p.fails {
            // SAFETY: it sets a number.
            unsafe { rattle_set_errno(EIO) };
            return -1;
        }
        // SAFETY: at most the length that the program gives.
        unsafe { to.copy_from(p.input[taken..].as_ptr(), count) };
        p.taken += count;
        count as isize
    })
}

/// # Safety
///
/// `from` is valid for reads of `length` bytes.
#[no_mangle]
unsafe extern "C" fn fuzz_write(file: c_int, from: *const u8, length: usize) -> isize {
    PIPES.with_borrow_mut(|p| {
        let count = p.piece(length);
        // SAFETY: at most the length that the program gives.
        let bytes = unsafe { std::slice::from_raw_parts(from, count) };
        match file {
            1 => p.output.extend(bytes),
            2 => p.said.extend(bytes),
            _ => panic!("a write to {file}"),
        }
        count as isize
    })
}

/// # Safety
///
/// `path` is ended by 0.
#[no_mangle]
unsafe extern "C" fn fuzz_open(path: *const c_char, _flags: c_int) -> c_int {
    // SAFETY: as the caller promises.
    let path = unsafe { CStr::from_ptr(path) };
    assert_eq!(path.to_bytes(), NAME.as_bytes());
    PIPES.with_borrow_mut(|p| {
        assert!(p.open.is_none());
        p.open = Some(FILE);
    });
    FILE
}

#[no_mangle]
extern "C" fn fuzz_close(file: c_int) -> c_int {
    PIPES.with_borrow_mut(|p| assert_eq!(p.open.take(), Some(file)));
    0
}

/// Goes to the journal's start.
#[no_mangle]
extern "C" fn fuzz_seek(file: c_int, to: i64, from: c_int) -> i64 {
    PIPES.with_borrow_mut(|p| {
        assert_eq!((p.open, to, from), (Some(file), 0, 0));
        p.taken = 0;
    });
    0
}

/// Argument i, 1 or more, or -1 where there is none.
///
/// # Safety
///
/// `to` is valid for writes of `length` bytes.
#[no_mangle]
unsafe extern "C" fn fuzz_arg(i: usize, to: *mut u8, length: usize) -> isize {
    PIPES.with_borrow(|p| {
        let word = match i.checked_sub(1) {
            None => Some("program"),
            Some(at) => p.words.get(at).map(String::as_str),
        };
        let Some(word) = word else {
            return -1;
        };
        let word = word.as_bytes();
        // SAFETY: at most the length that the program gives.
        unsafe { to.copy_from(word.as_ptr(), word.len().min(length)) };
        if word.len() > length {
            return -2;
        }
        word.len() as isize
    })
}

/// What `mtrrun` prints for a case.
fn mtrrun(case: &Case) -> Vec<u8> {
    PIPES.set(Pipes {
        open: Some(0),
        input: case.journal.clone(),
        pieces: case.pieces,
        ..Pipes::default()
    });
    // SAFETY: the program's main, which ignores its arguments.
    assert_eq!(unsafe { mtrrun_main() }, 0);
    let done = PIPES.take();
    assert!(done.said.is_empty());
    done.output
}

/// A program that is given a file, and how it names the file.
struct Program {
    main: unsafe extern "C" fn() -> c_int,
    name: &'static str,
    input: &'static str,
}

/// What it prints with these arguments after the file's name. Of the file so many bytes can be read if not all; none if it
/// says that a read failed.
fn of_file(
    program: Program,
    input: &[u8],
    pieces: [usize; 2],
    words: impl IntoIterator<Item = u64>,
    read: Option<usize>,
) -> Option<Vec<u8>> {
    let length = read.unwrap_or(input.len());
    let words = words.into_iter().map(|word| word.to_string());
    PIPES.set(Pipes {
        words: std::iter::once(NAME.to_string()).chain(words).collect(),
        input: input[..length].to_vec(),
        fails: read.is_some(),
        pieces,
        ..Pipes::default()
    });
    // SAFETY: the program's main, which ignores its arguments.
    assert_eq!(unsafe { (program.main)() }, 0);
    let done = PIPES.take();
    assert!(done.open.is_none());
    if done.said.is_empty() {
        return Some(done.output);
    }
    let said = format!("{}: {}: Input/output error\n", program.name, program.input);
    assert_eq!(done.said, said.as_bytes());
    assert!(done.output.is_empty());
    None
}

/// What `mtrwhy` prints about a record.
fn mtrwhy(case: &Case, asked: u64, read: Option<usize>) -> Option<Vec<u8>> {
    let program = Program {
        main: mtrwhy_main,
        name: "mtrwhy",
        input: "journal",
    };
    of_file(program, &case.journal, case.pieces, [asked], read)
}

/// What `mtrsum` writes.
fn mtrsum(case: &Case, read: Option<usize>) -> Option<Vec<u8>> {
    let program = Program {
        main: mtrsum_main,
        name: "mtrsum",
        input: "journal",
    };
    of_file(program, &case.journal, case.pieces, [], read)
}

/// `mtrask` on the journal's summary, whole or damaged, as the recipe has it.
fn summary_asked(recipe: &[u8], case: &Case) {
    let Ok(counts) = counts(&case.journal) else {
        return;
    };
    let seed = recipe.iter().fold(1, |seed: u64, &byte| {
        seed.wrapping_mul(0x100_0000_01b3) ^ u64::from(byte)
    });
    let mut rng = Rng::new(seed);
    let mut summary = usage::written(&case.journal);
    for _ in 0..rng.below(3) {
        if !summary.is_empty() {
            damage_summary(&mut rng, &mut summary);
        }
    }
    let questions: Vec<Question> = (0..rng.range(1, 64))
        .map(|_| any_question(&mut rng, &counts))
        .collect();
    let words = questions.iter().flat_map(|q| [q.thread, q.first, q.second]);
    let program = Program {
        main: mtrask_main,
        name: "mtrask",
        input: "summary",
    };
    let answers: Vec<_> = questions.iter().map(|q| ask(&summary, q)).collect();
    assert!(of_file(program, &summary, case.pieces, words, None) == Some(lines(&answers)));
}

/// A panic in it ends the process, which libFuzzer takes for the crash that it is.
///
/// # Safety
///
/// `data` is valid for reads of `size` bytes.
#[no_mangle]
pub unsafe extern "C" fn LLVMFuzzerTestOneInput(data: *const u8, size: usize) -> c_int {
    let recipe = if size == 0 {
        &[]
    } else {
        // SAFETY: as the caller promises.
        unsafe { std::slice::from_raw_parts(data, size) }
    };
    compared(recipe);
    let case = case(recipe);
    let printed = replay(&case.journal).printed;
    assert!(mtrrun(&case) == printed.as_bytes());
    let questions = questions(&case, &sorts(&case.journal));
    for asked in questions {
        assert!(mtrwhy(&case, asked, None) == Some(model::why::why(&case.journal, asked)));
    }
    let (asked, read) = (questions[0], failing(&case));
    assert!(mtrwhy(&case, asked, Some(read)) == cut(&case.journal, asked, read));
    assert!(mtrsum(&case, None) == Some(usage::written(&case.journal)));
    assert!(mtrsum(&case, Some(read)) == usage::cut(&case.journal, read));
    summary_asked(recipe, &case);
    0
}

/// Makes the rounds of the gate and calls `after` after each.
#[no_mangle]
pub extern "C" fn hostile_rounds(after: extern "C" fn()) {
    let mut attack = Attack::new(SEED);
    for round in 0..ROUNDS {
        attack.round(round);
        after();
    }
}
