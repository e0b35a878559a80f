//! Questions to `mtrwhy`: which records of a journal to ask about, and what sort of answer each has.

use crate::journal::Case;
use model::blocks::{kind, read_block, Record, BLOCK, RECORDS};
use model::rule::RUNNABLE;
use model::why::{why_from, History};
use samples::random::Rng;
use std::collections::BTreeMap;
use std::io::{self, Read};

/// What a record's number stands for.
#[derive(Clone, Copy, Debug, PartialEq, Eq, PartialOrd, Ord)]
pub enum Sort {
    /// A reserved thread with none, one or several before it.
    Chosen(Named),
    /// A best-effort thread with no reserved thread, one or several.
    BestEffort(Named),
    /// Idle, with no thread admitted, or with one reserved thread or several.
    Idle(Named),
    /// Idle, with one best-effort thread or several, and no reserved one.
    IdleBestEffort(Named),
    /// Idle, with threads of both kinds.
    IdleBoth,
    /// 12.
    Busy,
    /// 21: the number is past the journal's last block.
    PastTheEnd,
    /// 21: its block is refused, the last one for its length.
    InRefused,
    InShort,
    /// 21: its block has fewer records.
    PastTheLast,
    /// 21: another kind of record.
    NoDispatch,
    /// 21: a dispatch after a refused block, with no accepted start between.
    Stopped,
}

/// How many threads an answer names after its first line.
#[derive(Clone, Copy, Debug, PartialEq, Eq, PartialOrd, Ord)]
pub enum Named {
    None,
    One,
    Several,
}

impl Sort {
    pub const ALL: [Sort; 19] = [
        Sort::Chosen(Named::None),
        Sort::Chosen(Named::One),
        Sort::Chosen(Named::Several),
        Sort::BestEffort(Named::None),
        Sort::BestEffort(Named::One),
        Sort::BestEffort(Named::Several),
        Sort::Idle(Named::None),
        Sort::Idle(Named::One),
        Sort::Idle(Named::Several),
        Sort::IdleBestEffort(Named::One),
        Sort::IdleBestEffort(Named::Several),
        Sort::IdleBoth,
        Sort::Busy,
        Sort::PastTheEnd,
        Sort::InRefused,
        Sort::InShort,
        Sort::PastTheLast,
        Sort::NoDispatch,
        Sort::Stopped,
    ];

    /// The sort that its answer shows, which does not tell the kinds of thread.
    fn shown(self) -> Sort {
        match self {
            Sort::BestEffort(named) => Sort::Chosen(named),
            Sort::IdleBestEffort(named) => Sort::Idle(named),
            Sort::IdleBoth => Sort::Idle(Named::Several),
            other => other,
        }
    }

    /// Whether best-effort threads are part of it.
    pub fn of_best_effort(self) -> bool {
        self != self.shown()
    }

    /// Whether an answer can be one of this sort.
    pub fn fits(self, answer: &[u8]) -> bool {
        match self.shown() {
            shown @ (Sort::Chosen(_) | Sort::Idle(_)) => Sort::of_zero(answer) == Some(shown),
            Sort::Busy => answer.starts_with(b"12 "),
            _ => answer == b"21\n",
        }
    }

    /// Whether the record is a dispatch.
    pub fn is_dispatch(self) -> bool {
        matches!(
            self.shown(),
            Sort::Chosen(_) | Sort::Idle(_) | Sort::Busy | Sort::Stopped
        )
    }

    /// The sort of an answer that begins with 0.
    fn of_zero(answer: &[u8]) -> Option<Sort> {
        let named = match answer.iter().filter(|&&b| b == b'\n').count() {
            0 | 1 => Named::None,
            2 => Named::One,
            _ => Named::Several,
        };
        match answer {
            [b'0', b' ', b'6', b'4', b'\n', ..] => Some(Sort::Idle(named)),
            [b'0', b' ', ..] => Some(Sort::Chosen(named)),
            _ => None,
        }
    }
}

/// How often each sort occurred.
pub type Sorts = BTreeMap<Sort, usize>;

/// The sorts that occurred less often than this.
pub fn rarer(sorts: &Sorts, least: usize) -> Vec<Sort> {
    let often = |sort: &Sort| sorts.get(sort).is_some_and(|&n| n >= least);
    Sort::ALL.into_iter().filter(|sort| !often(sort)).collect()
}

/// The sort of a record that a block has, by the records before it.
fn sort(history: &History, record: &Record) -> Sort {
    if record.kind != kind::DISPATCH {
        return Sort::NoDispatch;
    }
    let Some(state) = history.state() else {
        return Sort::Stopped;
    };
    let ready = |reserved: bool| {
        let mut all = state.threads.iter();
        all.any(|t| t.status == RUNNABLE && t.is_reserved() == reserved)
    };
    let others = state.threads.iter().any(|t| t.is_best_effort());
    match Sort::of_zero(&history.answer(record)) {
        None => Sort::Busy,
        Some(Sort::Chosen(named)) if !ready(true) && ready(false) => Sort::BestEffort(named),
        Some(Sort::Idle(_)) if others && state.count > 0 => Sort::IdleBoth,
        Some(Sort::Idle(named)) if others => Sort::IdleBestEffort(named),
        Some(sort) => sort,
    }
}

/// The sort of every number that a block of the journal has room for.
pub fn sorts(journal: &[u8]) -> Vec<Sort> {
    let mut history = History::new();
    let mut sorts = Vec::new();
    for (place, area) in journal.chunks(BLOCK).enumerate() {
        match read_block(area, place as u32) {
            Err(17) => sorts.extend([Sort::InShort; RECORDS]),
            Err(_) => sorts.extend([Sort::InRefused; RECORDS]),
            Ok(records) => {
                let mut inside = history.clone();
                for record in &records {
                    let number = sorts.len() as u64;
                    sorts.push(sort(&inside, record));
                    inside.record::<false>(number, record);
                }
                sorts.resize(RECORDS * (place + 1), Sort::PastTheLast);
            }
        }
        history.block::<false>(area, u64::MAX);
    }
    sorts
}

/// The sort of a number, given those of the journal.
pub fn sort_of(sorts: &[Sort], asked: u64) -> Sort {
    let found = usize::try_from(asked).ok().and_then(|n| sorts.get(n));
    found.copied().unwrap_or(Sort::PastTheEnd)
}

/// Numbers that no journal of a test reaches, some of them small once cut to 32 bits.
pub const FAR: [u64; 8] = [
    1 << 31,
    1 << 32,
    (1 << 32) + 1,
    31 << 32,
    (31 << 32) + 1,
    1 << 63,
    9_999_999_999_999_999_998,
    9_999_999_999_999_999_999,
];

/// At least eleven numbers: one of each sort that the journal has, then any of its own, the first past it and one far away.
pub fn drawn(r: &mut Rng, sorts: &[Sort]) -> Vec<u64> {
    let mut asked = Vec::new();
    for sort in Sort::ALL {
        let of: Vec<usize> = (0..sorts.len()).filter(|&n| sorts[n] == sort).collect();
        if !of.is_empty() {
            asked.push(r.pick(&of) as u64);
        }
    }
    while asked.len() < 9 && !sorts.is_empty() {
        asked.push(r.below(sorts.len() as u64));
    }
    let end = sorts.len() as u64;
    asked.push(end + r.edgy(0, 40));
    asked.push(r.pick(&FAR));
    asked
}

/// Two numbers to ask a case's journal about. The bytes of the recipe that are its pieces choose the first, mostly one of
/// a dispatch, and at times any number up to a block past the end; the second is the last dispatch.
pub fn questions(case: &Case, sorts: &[Sort]) -> [u64; 2] {
    let dispatches: Vec<usize> = (0..sorts.len())
        .filter(|&n| sorts[n].is_dispatch())
        .collect();
    let draw = number(case);
    let any = draw / 8 % (sorts.len() + RECORDS);
    let last = dispatches.last().copied().unwrap_or(any);
    let first = match draw % 8 {
        0..=5 if !dispatches.is_empty() => dispatches[draw / 8 % dispatches.len()],
        _ => any,
    };
    [first as u64, last as u64]
}

/// The number in the two bytes that are a case's pieces.
fn number(case: &Case) -> usize {
    let [low, high] = case.pieces.map(|length| length / 8);
    low + 256 * high
}

/// After how many bytes the reads of a case's journal fail, where they are made to.
pub fn failing(case: &Case) -> usize {
    number(case) * 37 % (case.journal.len() + 1)
}

/// What is printed where the reads fail after so many bytes, and none where that is said instead. Where nothing was read it
/// is 4.
pub fn cut(journal: &[u8], asked: u64, bytes: usize) -> Option<Vec<u8>> {
    match why_from(journal[..bytes].chain(Fails), asked) {
        Ok(answer) => Some(answer),
        Err(_) if bytes == 0 => Some(b"4\n".to_vec()),
        Err(_) => None,
    }
}

struct Fails;

impl Read for Fails {
    fn read(&mut self, _: &mut [u8]) -> io::Result<usize> {
        Err(io::Error::other("no more"))
    }
}
