//! The worked examples by the methods, and as events from blocks: the answers and decisions of the texts, what the texts say of the state,
//! and after every record what the model says of it.

use model::accounts;
use model::blocks::kind;
use model::calls::{self, Call};
use model::rule::{self, FREE, NONE};
use mtr::{blocks, Dispatch, Entry, Reason, Refusal, Scheduler, Settings, ThreadState};
use samples::examples::{self, Example, Fact};

type Answer = Result<Option<Dispatch>, Refusal>;

/// The call of a record by the method of its name.
fn by_method(s: &mut Scheduler, record: &model::blocks::Record) -> Answer {
    if record.kind == kind::START {
        *s = Scheduler::new(Settings {
            thousandth: record.amount,
            interval: record.ticks,
            overrun: record.overrun,
        })?;
        return Ok(None);
    }
    match calls::recorded(record).unwrap() {
        Call::Open {
            number,
            parent,
            ceiling,
        } => s.open(number as u8, parent as u8, ceiling as u16)?,
        Call::Close { number } => s.close(number as u8)?,
        Call::Admit {
            number,
            group,
            reservation,
        } => s.admit(number as u8, group as u8, reservation as u16)?,
        Call::Remove { number } => s.remove(number as u8)?,
        Call::Wake { number } => s.wake(number as u8)?,
        Call::Dispatch => return s.dispatch().map(Some),
        Call::Report { reason, used } => {
            let reasons = [Reason::Tick, Reason::Block, Reason::Yield, Reason::Exit];
            s.report(reasons[reason as usize], used as u32)?
        }
        Call::Change {
            number,
            reservation,
        } => s.change(number as u8, reservation as u16)?,
        Call::AdmitBestEffort { number, weight } => {
            s.admit_best_effort(number as u8, weight as u16)?
        }
    }
    Ok(None)
}

/// The line of a record with this answer.
fn line(record: usize, answer: Answer) -> String {
    let (number, thread, slice, before) = match answer {
        Err(refusal) => (refusal.number(), 0, 0, 0),
        Ok(None) => (0, 0, 0, 0),
        Ok(Some(Dispatch::Idle { before })) => (0, 64, 0, before),
        Ok(Some(Dispatch::Run {
            thread,
            slice,
            before,
        })) => (0, thread, slice, before),
    };
    format!("{record} {number} {thread} {slice} {before}")
}

fn roster(s: &Scheduler) -> Vec<Entry> {
    let mut table = [Entry::default(); 64];
    s.roster(&mut table).unwrap().to_vec()
}

/// Whether the scheduler tells what the text says.
fn holds(fact: &Fact, s: &Scheduler) -> bool {
    let state = s.as_raw();
    let rows = roster(s);
    match fact {
        Fact::Lag(n, lag) => s.lag(*n) == Ok(*lag),
        Fact::Share(n, share) => s.share(*n).map(u64::from) == Ok(*share),
        Fact::Allotment(n, left) => rows.iter().any(|e| (e.thread, e.allotment) == (*n, *left)),
        Fact::Tag(n, tag) => state.threads[*n as usize].tag == *tag,
        Fact::Time(time) => state.time == *time,
        Fact::Meter(meter) => s.meter() == *meter,
        Fact::List(list) => s.list() == list,
        Fact::Roster(numbers) => rows.iter().map(|e| e.thread).eq(numbers.iter().copied()),
        Fact::Why(_) => true,
    }
}

/// All that the scheduler tells is so in the model's state.
fn agrees(s: &Scheduler, m: &rule::Scheduler) {
    assert!(s.is_sound());
    let settings = Settings {
        thousandth: m.settings.thousandth,
        interval: m.settings.interval,
        overrun: m.settings.overrun,
    };
    assert_eq!(s.settings(), settings);
    assert_eq!((s.meter(), s.list()), (m.meter, m.list()));
    let running = (m.running != NONE).then_some(m.running as u8);
    assert_eq!(s.running(), running);
    for n in 0..=64u8 {
        let lag = s.lag(n).map_err(Refusal::number);
        assert_eq!(lag, m.lag(n.into()));
        let share = s.share(n).map_err(Refusal::number);
        assert_eq!(share.map(u64::from), m.share(n.into()));
    }
    let mut table = [accounts::Entry::default(); 64];
    assert_eq!(m.roster(&mut table), 0);
    let admitted = m.threads.iter().filter(|t| t.status != FREE).count();
    let entry = |e: &accounts::Entry| Entry {
        thread: e.number as u8,
        state: match e.state {
            0 => ThreadState::Runnable,
            1 => ThreadState::Blocked,
            _ => ThreadState::Running,
        },
        allotment: e.allotment,
        lag: e.lag,
        share: e.share,
    };
    let wanted: Vec<Entry> = table[..admitted].iter().map(entry).collect();
    assert_eq!(roster(s), wanted);
}

/// Makes the calls of an example one after the other.
fn run(example: &Example, mut call: impl FnMut(&mut Scheduler, usize) -> Answer) {
    let mut s = Scheduler::default();
    let mut m = rule::Scheduler::default();
    for (n, step) in example.steps.iter().enumerate() {
        let at = format!("{}, record {n}", example.name);
        let before = s.clone();
        let answer = call(&mut s, n);
        assert_eq!(line(n, answer), step.printed, "{at}");
        assert!(answer.is_ok() || s == before, "{at}");
        calls::run(&mut m, &step.record);
        agrees(&s, &m);
        for fact in &step.facts {
            assert!(holds(fact, &s), "{at}: {fact:?}");
        }
    }
}

#[test]
fn by_methods() {
    for example in examples::all() {
        run(&example, |s, n| by_method(s, &example.steps[n].record));
    }
}

/// The events are those of the example's journal, and they make its blocks again.
#[test]
fn by_events() {
    for example in examples::all() {
        let mut events = Vec::new();
        for (number, area) in (0..).zip(example.journal().chunks(blocks::BYTES)) {
            let read = blocks::read(area, number).unwrap();
            let mut again = [7; blocks::BYTES];
            assert_eq!(blocks::write(&mut again, number, &read), Ok(()));
            assert!(again == *area, "{}, block {number}", example.name);
            events.extend(&read);
        }
        assert_eq!(events.len(), example.steps.len());
        run(&example, |s, n| s.call(events[n]));
    }
}

/// The journal that goes along with `mtrrun` is the listing.
#[test]
fn the_shipped_journal() {
    let path = concat!(env!("CARGO_MANIFEST_DIR"), "/../../crates/mtrrun/stdin");
    let bytes = std::fs::read(path).unwrap();
    assert_eq!(bytes, examples::listing().journal());
}
