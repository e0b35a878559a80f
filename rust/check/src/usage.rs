//! What occurred of summaries and of questions about them, so that a test can ask that all of it did.

use model::blocks::{kind, read_block, BLOCK};
use model::calls::run;
use model::rule::{Scheduler, NONE, THREADS};
use model::usage::{counts, read, summary, Question, COUNTS};
use std::collections::BTreeMap;

/// What becomes of a question.
#[derive(Clone, Copy, Debug, PartialEq, Eq, PartialOrd, Ord)]
pub enum Sort {
    /// 0: some ticks between two blocks, none, or one block and so none.
    Ticks,
    NoTicks,
    OneBlock,
    /// 24: the thread is none, or the blocks are reversed.
    NoThread,
    Reversed,
    /// 24: the summary ends before, or right between the two halves of the journal block, or twice the block is no number.
    Absent,
    HalfAbsent,
    Large,
    /// 17, which only the last block can be.
    Short,
    /// 18, and 19 of a block's form.
    Check(Which),
    Form(Which),
    /// 19, since the later count is the smaller.
    Falling,
}

/// Which of the two summary blocks is refused.
#[derive(Clone, Copy, Debug, PartialEq, Eq, PartialOrd, Ord)]
pub enum Which {
    /// The earlier one, and the later one is read or has the same refusal.
    Earlier,
    /// The later one alone.
    Later,
    /// Both, and the later one otherwise.
    Both,
}

impl Sort {
    pub const ALL: [Sort; 16] = [
        Sort::Ticks,
        Sort::NoTicks,
        Sort::OneBlock,
        Sort::NoThread,
        Sort::Reversed,
        Sort::Absent,
        Sort::HalfAbsent,
        Sort::Large,
        Sort::Short,
        Sort::Check(Which::Earlier),
        Sort::Check(Which::Later),
        Sort::Check(Which::Both),
        Sort::Form(Which::Earlier),
        Sort::Form(Which::Later),
        Sort::Form(Which::Both),
        Sort::Falling,
    ];

    /// Whether an answer can be one of this sort.
    pub fn fits(self, answer: Result<u64, u32>) -> bool {
        match self {
            Sort::Ticks => answer.is_ok_and(|ticks| ticks > 0),
            Sort::NoTicks | Sort::OneBlock => answer == Ok(0),
            Sort::Short => answer == Err(17),
            Sort::Check(_) => answer == Err(18),
            Sort::Form(_) | Sort::Falling => answer == Err(19),
            _ => answer == Err(24),
        }
    }
}

/// The sort of a question about a summary.
pub fn sort_of(summary: &[u8], q: &Question) -> Sort {
    let half = q.thread / COUNTS as u64;
    let blocks = summary.len().div_ceil(BLOCK) as u64;
    if q.thread >= THREADS as u64 {
        return Sort::NoThread;
    } else if q.first > q.second {
        return Sort::Reversed;
    } else if q.second >= 1 << 63 {
        return Sort::Large;
    } else if 2 * q.second >= blocks {
        return Sort::Absent;
    } else if 2 * q.second + half >= blocks {
        return Sort::HalfAbsent;
    }
    let count = |block: u64| -> Result<u64, u32> {
        let place = 2 * block + half;
        let area = &summary[place as usize * BLOCK..];
        let counts = read(&area[..area.len().min(BLOCK)], place)?;
        Ok(counts[q.thread as usize % COUNTS])
    };
    let (refusal, which) = match (count(q.first), count(q.second)) {
        (Ok(earlier), Ok(later)) if later < earlier => return Sort::Falling,
        (Ok(earlier), Ok(later)) if later > earlier => return Sort::Ticks,
        (Ok(_), Ok(_)) if q.first == q.second => return Sort::OneBlock,
        (Ok(_), Ok(_)) => return Sort::NoTicks,
        (Err(a), Err(b)) if a != b => (a, Which::Both),
        (Err(a), _) => (a, Which::Earlier),
        (_, Err(b)) => (b, Which::Later),
    };
    match refusal {
        17 => Sort::Short,
        18 => Sort::Check(which),
        _ => Sort::Form(which),
    }
}

/// How often each sort occurred.
pub type Sorts = BTreeMap<Sort, usize>;

/// The sorts that occurred less often than this.
pub fn rarer(sorts: &Sorts, least: usize) -> Vec<Sort> {
    let often = |sort: &Sort| sorts.get(sort).is_some_and(|&n| n >= least);
    Sort::ALL.into_iter().filter(|sort| !often(sort)).collect()
}

/// What `mtrsum` writes for a journal: the summary, or the line of the first refusal.
pub fn written(journal: &[u8]) -> Vec<u8> {
    summary(journal).unwrap_or_else(|refusal| format!("{refusal}\n").into_bytes())
}

/// What it writes where the reads fail after so many bytes, and none where that is said instead: the blocks that were read
/// whole are judged. Where nothing was read it is 4.
pub fn cut(journal: &[u8], bytes: usize) -> Option<Vec<u8>> {
    let whole = &journal[..bytes / BLOCK * BLOCK];
    match bytes {
        0 => Some(b"4\n".to_vec()),
        _ => summary(whole).is_err().then(|| written(whole)),
    }
}

/// A journal that was summed: its blocks' refusals, and if there is none what its counts come from.
#[derive(Default)]
pub struct Journal {
    refusals: Vec<(usize, u32)>,
    blocks: usize,
    /// What stands in the last counts, and what the last block adds.
    last: Vec<u64>,
    added: bool,
    refused_report: bool,
    start_after_ticks: bool,
    empty_block: bool,
    runs_on: bool,
    number_again: bool,
    beyond_the_slice: bool,
    /// Ticks to a reserved thread, and to a best-effort one.
    kinds: [bool; 2],
}

impl Journal {
    /// # Panics
    ///
    /// If the model counts for it what its accepted reports do not say.
    pub fn new(bytes: &[u8]) -> Journal {
        let mut j = Journal::default();
        let read = bytes.chunks(BLOCK).zip(0u32..);
        let read: Vec<_> = read.map(|(area, n)| read_block(area, n)).collect();
        j.blocks = read.len();
        for (place, block) in read.iter().enumerate() {
            j.refusals.extend(block.as_ref().err().map(|&e| (place, e)));
        }
        let Ok(rows) = counts(bytes) else {
            return j;
        };
        let (mut s, mut charged) = (Scheduler::default(), vec![0; THREADS]);
        for (records, row) in read.iter().flatten().zip(&rows) {
            assert_eq!(charged, row);
            j.last = charged.clone();
            j.runs_on |= s.running != NONE;
            j.empty_block |= records.is_empty() && charged.iter().any(|&n| n > 0);
            for record in records {
                j.record(&mut s, &mut charged, record);
            }
        }
        j.added = charged != j.last;
        j
    }

    fn record(&mut self, s: &mut Scheduler, charged: &mut [u64], r: &model::blocks::Record) {
        let running = s.running as usize;
        let before = s.threads.get(running).copied();
        let slice = before.map_or(0, |t| t.slice(&s.settings) as u64);
        let answer = run(s, r).answer;
        let used = r.ticks as u64;
        let any = charged.iter().any(|&n| n > 0);
        match (r.kind, answer) {
            (kind::REPORT, 0) => {
                charged[running] += used;
                self.beyond_the_slice |= used > slice;
                let best_effort = before.is_some_and(|t| t.is_best_effort());
                self.kinds[best_effort as usize] |= used > 0;
            }
            (kind::REPORT, _) => self.refused_report |= used > 0,
            (kind::START, 0) => self.start_after_ticks |= any,
            (kind::ADMIT | kind::ADMIT_BEST_EFFORT, 0) => {
                self.number_again |= charged[r.subject as usize] > 0;
            }
            _ => {}
        }
    }

    /// Its first refusal is this one.
    fn first(&self, refusal: u32) -> bool {
        self.refusals
            .first()
            .is_some_and(|first| first.1 == refusal)
    }

    /// A later block has another refusal than the first.
    fn differ(&self) -> bool {
        self.refusals.iter().any(|&(_, e)| !self.first(e))
    }

    fn summed(&self) -> bool {
        self.refusals.is_empty()
    }
}

/// A sort of journals: its name, and which belong to it.
type OfJournal = (&'static str, fn(&Journal) -> bool);

/// Every sort that a test asks for.
const JOURNALS: [OfJournal; 19] = [
    ("no block", |j| j.blocks == 0),
    ("one block", |j| j.summed() && j.blocks == 1),
    ("several blocks", |j| j.summed() && j.blocks > 1),
    ("17", |j| j.first(17)),
    ("18", |j| j.first(18)),
    ("19", |j| j.first(19)),
    ("refused after blocks that are read", |j| {
        j.refusals.first().is_some_and(|first| first.0 > 0)
    }),
    ("the first of several that differ", |j| j.differ()),
    ("ticks of threads below 32", |j| {
        j.last.iter().take(COUNTS).any(|&n| n > 0)
    }),
    ("ticks of threads from 32 on", |j| {
        j.last.iter().skip(COUNTS).any(|&n| n > 0)
    }),
    ("ticks of a reserved thread", |j| j.kinds[0]),
    ("ticks of a best-effort thread", |j| j.kinds[1]),
    ("ticks beyond the slice", |j| j.beyond_the_slice),
    ("ticks in the last block", |j| j.added),
    ("a refused report of ticks", |j| j.refused_report),
    ("a start after ticks", |j| j.start_after_ticks),
    ("a block without records after ticks", |j| j.empty_block),
    ("a thread that runs at the start of a block", |j| j.runs_on),
    ("a thread under the number of one with ticks", |j| {
        j.number_again
    }),
];

/// How often each sort of journal occurred.
#[derive(Clone, Default)]
pub struct Journals([u64; JOURNALS.len()]);

impl Journals {
    /// Counts a journal.
    pub fn journal(&mut self, bytes: &[u8]) {
        let journal = Journal::new(bytes);
        for (count, (_, of)) in self.0.iter_mut().zip(JOURNALS) {
            *count += of(&journal) as u64;
        }
    }
}

counts_of!(Journals, JOURNALS);
