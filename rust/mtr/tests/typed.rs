//! What the types add to the library's numbers: names of refusals, decisions, the roster's table, events and blocks.

use mtr::{
    blocks, numbers, raw, Dispatch, Entry, Event, Reason, Refusal, Scheduler, Settings, ThreadState,
};

fn run(thread: u8, slice: u32, before: u32) -> Dispatch {
    Dispatch::Run {
        thread,
        slice,
        before,
    }
}

/// A scheduler with threads of these numbers and reservations in group 0.
fn with(threads: &[(u8, u16)]) -> Scheduler {
    let mut s = Scheduler::default();
    for &(thread, reservation) in threads {
        s.admit(thread, 0, reservation).unwrap();
    }
    s
}

/// The call is refused and leaves the scheduler as it was.
fn refused<T: std::fmt::Debug + PartialEq>(
    s: &mut Scheduler,
    refusal: Refusal,
    call: impl FnOnce(&mut Scheduler) -> Result<T, Refusal>,
) {
    let before = s.clone();
    assert_eq!(call(s), Err(refusal));
    assert_eq!(*s, before);
}

/// The refusals of RULE 6.9 in their order. 21 is what mtrwhy prints alone.
const NAMES: [(u32, Refusal); 22] = [
    (1, Refusal::Settings),
    (2, Refusal::NoGroup),
    (3, Refusal::GroupNumber),
    (4, Refusal::Amount),
    (5, Refusal::NoRoom),
    (6, Refusal::GroupInUse),
    (7, Refusal::NoThread),
    (8, Refusal::AlreadyAdmitted),
    (9, Refusal::ThreadRunning),
    (10, Refusal::NotBlocked),
    (11, Refusal::NothingRunning),
    (12, Refusal::Busy),
    (13, Refusal::OverSlice),
    (14, Refusal::Reason),
    (15, Refusal::MeterFull),
    (16, Refusal::Unsound),
    (17, Refusal::Length),
    (18, Refusal::Check),
    (19, Refusal::Form),
    (20, Refusal::NotStarted),
    (22, Refusal::TableRow),
    (23, Refusal::TableCover),
];

#[test]
fn refusals_by_name_and_number() {
    assert_eq!(Refusal::ALL, NAMES.map(|(_, refusal)| refusal));
    for (number, refusal) in NAMES {
        assert_eq!(refusal.number(), number);
        assert_eq!(Refusal::from_number(number), Some(refusal));
        let error: &dyn std::error::Error = &refusal;
        let text = format!("{number}: {}", raw::answer_text(number));
        assert_eq!(error.to_string(), text);
    }
    for number in [0, 21, 24, 256, u32::MAX] {
        assert_eq!(Refusal::from_number(number), None);
    }
}

#[test]
fn reasons_by_number() {
    let named = [Reason::Tick, Reason::Block, Reason::Yield, Reason::Exit];
    for number in 0..=255 {
        let reason = named.get(usize::from(number)).copied();
        assert_eq!(Reason::from_number(number), reason);
        assert!(reason.is_none_or(|reason| reason.number() == number));
    }
}

#[test]
fn the_default_settings() {
    let settings = Settings {
        thousandth: 100,
        interval: 20_000,
        overrun: 0,
    };
    assert_eq!(Settings::default(), settings);
    assert_eq!(Scheduler::default().settings(), settings);
    assert_eq!(Scheduler::new(settings), Ok(Scheduler::default()));
}

/// The refusals of calls that no example has.
#[test]
fn rare_refusals() {
    let mut s = with(&[(1, 10)]);
    s.dispatch().unwrap();
    let unknown = Event::Report { reason: 4, used: 0 };
    refused(&mut s, Refusal::Reason, |s| s.call(unknown));

    let mut state = *with(&[(1, 10)]).as_raw();
    state.meter = raw::METER_LIMIT;
    let mut s = Scheduler::from_raw(state);
    assert!(s.is_sound());
    refused(&mut s, Refusal::MeterFull, |s| s.dispatch());
}

#[test]
fn unsound_states_are_refused() {
    let mut state = *with(&[(1, 10)]).as_raw();
    state.count = 65;
    state.settings.thousandth = u16::MAX;
    let mut s = Scheduler::from_raw(state);
    assert!(!s.is_sound());
    refused(&mut s, Refusal::Unsound, |s| s.open(1, 0, 1));
    refused(&mut s, Refusal::Unsound, |s| s.close(1));
    refused(&mut s, Refusal::Unsound, |s| s.admit(2, 0, 1));
    refused(&mut s, Refusal::Unsound, |s| s.remove(1));
    refused(&mut s, Refusal::Unsound, |s| s.wake(1));
    refused(&mut s, Refusal::Unsound, |s| s.dispatch());
    refused(&mut s, Refusal::Unsound, |s| s.report(Reason::Tick, 0));
    refused(&mut s, Refusal::Unsound, |s| s.change(1, 1));
    refused(&mut s, Refusal::Unsound, |s| s.admit_best_effort(2, 1));
    assert_eq!(s.subtree_total(0), Err(Refusal::Unsound));
    assert_eq!(s.lag(1), Err(Refusal::Unsound));
    assert_eq!(s.share(1), Err(Refusal::Unsound));
    let mut table = [Entry::default(); 64];
    assert_eq!(s.roster(&mut table), Err(Refusal::Unsound));
    assert_eq!((s.list(), s.settings().thousandth), (&[][..], u16::MAX));
    // A start needs no sound state.
    let start = Event::Start(Settings::default());
    assert_eq!(s.call(start), Ok(None));
    assert_eq!(s, Scheduler::default());
}

#[test]
fn subtree_totals() {
    let mut s = with(&[(9, 700)]);
    s.open(1, 0, 300).unwrap();
    s.open(2, 1, 200).unwrap();
    s.admit(8, 2, 150).unwrap();
    s.admit_best_effort(1, 2).unwrap();
    let totals = [0, 1, 2].map(|group| s.subtree_total(group));
    assert_eq!(totals, [Ok(850), Ok(150), Ok(150)]);
    for group in [3, 16, 255] {
        assert_eq!(s.subtree_total(group), Err(Refusal::NoGroup));
    }
}

/// All 64 threads, of both kinds, in a table that is longer than their number can be; entries past the last keep their contents.
#[test]
fn the_rosters_table() {
    let mark = Entry {
        thread: 99,
        ..Entry::default()
    };
    let mut s = Scheduler::default();
    let mut table = [mark; 70];
    assert_eq!(s.roster(&mut []), Ok(&[][..]));
    for thread in 0..64 {
        match thread % 2 {
            0 => s.admit(thread, 0, 15).unwrap(),
            _ => s.admit_best_effort(thread, 1).unwrap(),
        }
        let filled = usize::from(thread) + 1;
        assert_eq!(s.roster(&mut table[..filled - 1]), Err(Refusal::Length));
        assert_eq!(table, [mark; 70]);
        assert_eq!(s.roster(&mut table).unwrap().len(), filled);
        assert_eq!(table[filled..], [mark; 70][filled..]);
        assert_eq!(s.roster(&mut table[..filled]).unwrap().len(), filled);
        table = [mark; 70];
    }
    assert_eq!(s.dispatch(), Ok(run(0, 1_500, 0)));
    let roster = s.roster(&mut table).unwrap();
    let ran = roster.iter().filter(|e| e.state == ThreadState::Running);
    assert!(ran.map(|e| e.thread).eq([0]));
}

/// The numbers of statuses and open groups in the state.
#[test]
fn state_as_numbers() {
    let mut s = with(&[(1, 10), (2, 10)]);
    s.open(3, 0, 5).unwrap();
    s.dispatch().unwrap();
    s.report(Reason::Block, 1).unwrap();
    let state = s.as_raw();
    for (number, thread) in state.threads.iter().enumerate() {
        let status = match number {
            1 => raw::STATUS_BLOCKED,
            2 => raw::STATUS_RUNNABLE,
            _ => raw::STATUS_FREE,
        };
        assert_eq!(thread.status, status, "{number}");
    }
    for (number, group) in state.groups.iter().enumerate() {
        let opened = match number {
            0 | 3 => raw::GROUP_OPEN,
            _ => raw::GROUP_CLOSED,
        };
        assert_eq!(group.opened, opened, "{number}");
    }
    assert_eq!(state.running, raw::NO_THREAD);
    assert_eq!(Scheduler::from_raw(*state), s);
}

/// One event of each kind, with edge values.
const KINDS: [Event; 10] = [
    Event::Open {
        group: 255,
        parent: 254,
        ceiling: 65_535,
    },
    Event::Close { group: 253 },
    Event::Admit {
        thread: 252,
        group: 251,
        reservation: 65_534,
    },
    Event::Remove { thread: 250 },
    Event::Wake { thread: 249 },
    Event::Dispatch,
    Event::Report {
        reason: 248,
        used: u32::MAX,
    },
    Event::Start(Settings {
        thousandth: 65_533,
        interval: u32::MAX - 1,
        overrun: 65_532,
    }),
    Event::Change {
        thread: 247,
        reservation: 65_531,
    },
    Event::AdmitBestEffort {
        thread: 246,
        weight: 65_530,
    },
];

#[test]
fn blocks_round_trip() {
    let events: Vec<Event> = KINDS.iter().copied().cycle().take(32).collect();
    let number = u32::MAX;
    for count in [0, 1, 31] {
        let mut area = [7; blocks::BYTES];
        assert_eq!(blocks::write(&mut area, number, &events[..count]), Ok(()));
        let read = blocks::read(&area, number).unwrap();
        assert_eq!(*read, events[..count]);
        assert!((&read).into_iter().eq(&events[..count]));
        assert_eq!(format!("{read:?}"), format!("{:?}", &events[..count]));
        assert_eq!(blocks::read(&area, 0), Err(Refusal::Form));
        area[100] ^= 1;
        assert_eq!(blocks::read(&area, number), Err(Refusal::Check));
    }
    let mut area = [7; blocks::BYTES];
    assert_eq!(blocks::write(&mut area, 0, &events), Err(Refusal::Form));
    assert_eq!(area, [7; blocks::BYTES]);
    for length in [0, 511, 513] {
        let mut area = vec![7; length];
        assert_eq!(blocks::write(&mut area, 0, &events), Err(Refusal::Length));
        assert_eq!(area, vec![7; length]);
        assert_eq!(blocks::read(&area, 0), Err(Refusal::Length));
    }
}

/// An event and its record; a record has an event exactly if the library writes
/// it.
#[test]
fn records() {
    for (i, event) in KINDS.into_iter().enumerate() {
        let record = raw::Record::from(event);
        assert_eq!(record.kind as usize, i + 1);
        assert_eq!(Event::try_from(record), Ok(event));
    }
    let mut counts = [0; 2];
    for kind in 0..=255 {
        for fields in 0..64u8 {
            let used = |bit: u8| fields >> bit & 1;
            let record = raw::Record {
                kind,
                subject: used(0),
                group: used(1),
                reason: used(2),
                amount: used(3).into(),
                overrun: used(4).into(),
                ticks: used(5).into(),
            };
            let answer = numbers::write_block(&mut [0; blocks::BYTES], 0, &[record]);
            let event = Event::try_from(record);
            match answer {
                0 => assert_eq!(event.map(raw::Record::from), Ok(record)),
                _ => assert_eq!((answer, event), (19, Err(Refusal::Form))),
            }
            counts[(answer == 0) as usize] += 1;
        }
    }
    // Kinds use 3, 1, 3, 1, 1, 0, 2, 3, 2 and 2 fields.
    assert_eq!(counts[1], 8 + 2 + 8 + 2 + 2 + 1 + 4 + 8 + 4 + 4);
    assert_eq!(counts[0] + counts[1], 256 * 64);
}
