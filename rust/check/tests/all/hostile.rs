//! A hostile host: arbitrary bytes and arguments to every exported function, compared with the model,
//! and lent memory against pages that nobody may touch.

use check::attack::{
    Attack, ALLOTMENTS, ANSWERS, FUNCTIONS, LIMITS, ORIGINS, PROPERTIES, ROUNDS, SEED,
};
use check::compare::to_model_table;
use check::faults;
use check::guard::{Guarded, Side};
use check::tables::sorts;
use mtr::raw;
use std::os::unix::process::ExitStatusExt;
use std::process::Command;

#[test]
fn a_million_calls() {
    faults::watch();
    let mut attack = Attack::new(SEED);
    for round in 0..ROUNDS {
        attack.round(round);
    }
    assert_eq!(attack.calls(), 1_000_000);
    for ((name, wanted), counts) in FUNCTIONS.iter().zip(&attack.answers) {
        let made: u64 = counts.iter().sum();
        assert!(made > 50_000, "{name}: {made} calls");
        let seen: Vec<u32> = (0..ANSWERS as u32)
            .filter(|&a| counts[a as usize] > 0)
            .collect();
        assert_eq!(seen, *wanted, "{name}");
        let rare = wanted.iter().filter(|&&a| counts[a as usize] < 100);
        assert_eq!(rare.count(), 0, "{name}: {counts:?}");
    }
    assert!(attack.idle > 100, "{} idle", attack.idle);
    let priorities = attack.priorities;
    assert!(priorities.iter().all(|&n| n > 100), "{priorities:?}");
    // Tables of every number of rows, and every refusal at every row and every priority, for each of its causes.
    let tables = attack.tables;
    assert_eq!(tables.seen(), sorts());
    assert_eq!(tables.rarer(&sorts(), 40), [], "{tables:?}");
    assert!(tables.outside > 1_000 && attack.standard > 1_000);
    for (origin, [unsound, sound]) in ORIGINS.iter().zip(attack.states) {
        // Bytes all at random and states that are sound but for one condition are never sound; the last ones are always.
        let never = ["any bytes", "sound but for one condition"].contains(origin);
        assert_eq!(unsound > 1_000, *origin != "sound", "{origin}");
        assert_eq!(sound > 1_000, !never, "{origin}");
        assert!(sound == 0 || !never, "{origin}");
    }
    // Each condition of soundness alone.
    assert!(attack.broken.len() > 60, "{}", attack.broken.len());
    let rare = attack.broken.iter().filter(|(_, &n)| n < 200);
    assert_eq!(rare.count(), 0, "{:?}", attack.broken);
    // Every overrun limit and every allotment that a state can't have, and those that it can.
    let limits = LIMITS.iter().zip(&attack.limits);
    let allotments = ALLOTMENTS.iter().zip(&attack.allotments);
    for ((name, can), [unsound, sound]) in limits.chain(allotments) {
        assert!(*unsound > 100, "{name}: {unsound}");
        assert_eq!(*sound > 100, *can, "{name}: {sound}");
    }
    // Tags at, beside and between their bounds, weights, the virtual time, and what no one looks at in either kind of entry.
    for ((name, can, _), [unsound, sound]) in PROPERTIES.iter().zip(attack.properties) {
        assert!(unsound > 100, "{name}: {unsound}");
        assert_eq!(sound > 100, *can, "{name}: {sound}");
        assert!(sound == 0 || *can, "{name}: {sound}");
    }
    let best_effort = attack.best_effort;
    assert!(best_effort.rarer(20).is_empty(), "{best_effort:?}");
    let late = attack.late;
    assert!(late.all_reports(10) && late.all_starts(100), "{late:?}");
    // Changes that cut, that leave the allotment, of every thread and group, to the thousandth and beyond it.
    let changes = attack.changes;
    assert!(changes.rarer(20).is_empty(), "{changes:?}");
    // Shares rounded either way, halves too.
    let shares = attack.shares;
    assert!(shares.all(100), "{shares:?}");
    // Equal lags of every sort.
    let ties = attack.ties;
    assert!(ties.rarer(1_000).is_empty(), "{ties:?}");
    // At either guard page, areas of some length and of none.
    assert!(
        attack.areas.iter().flatten().all(|&n| n > 100),
        "{:?}",
        attack.areas
    );
}

/// No exported function is left out.
#[test]
fn every_function() {
    let declared: Vec<&str> = include_str!("../../../mtr/src/raw.rs")
        .lines()
        .filter_map(|line| line.split_once(" fn ")?.1.split_once('('))
        .map(|(name, _)| name)
        .filter(|name| name.starts_with("mtr_"))
        .collect();
    // These take nothing, so that one call is all of them.
    assert!(raw::mtr_version() > 0);
    let table = raw::mtr_standard_table();
    assert_eq!(to_model_table(&table), model::table::standard());
    let mut called: Vec<&str> = FUNCTIONS.iter().map(|(name, _)| *name).collect();
    called.extend(["mtr_version", "mtr_standard_table"]);
    for name in &declared {
        assert!(called.contains(name), "{name} is not called");
    }
    assert_eq!(declared.len(), called.len());
}

/// The variable that makes this program the child of the test below.
const TOUCH: &str = "HOSTILE_TOUCH";

/// What a child does: its name, and whether the guard has to end it.
const TOUCHES: [(&str, bool); 10] = [
    ("inside", false),
    ("read before", true),
    ("read after", true),
    ("write before", true),
    ("write after", true),
    ("write while read-only", true),
    ("library reads before", true),
    ("library reads after", true),
    ("library writes after", true),
    ("library fills after", true),
];

fn touch(name: &str) {
    let mut page = Guarded::mapped();
    // From its second byte on an empty block 0 but for the last byte, which is read if the one before it is right.
    let mut block = [0; 512];
    block[511] = 1;
    let front = page.lend(Side::Front, &block, 1);
    let back = page.lend(Side::Back, &block, 1);
    let state =
        raw::mtr_by_value_admit(raw::mtr_by_value_start(100, 20_000, 99).state, 1, 0, 10).state;
    // SAFETY: none of them is, but for "inside". They touch a byte next to the page, or say of an area that it is
    // longer than it is or begins earlier, which the library has to be caught believing.
    unsafe {
        match name {
            "inside" => {
                front.write_volatile(front.add(4095).read_volatile());
                back.add(511).write_volatile(back.read_volatile());
                let records = raw::Records::default();
                assert_eq!(raw::mtr_by_value_write_block(front, 512, 0, records, 0), 0);
                assert_eq!(raw::mtr_by_value_read_block(front, 512, 0).answer, 0);
                assert_eq!(raw::mtr_by_value_write_block(back, 512, 0, records, 0), 0);
                assert_eq!(
                    page.read_only(|| raw::mtr_by_value_read_block(back, 512, 0).answer),
                    0
                );
                let entry = page.at(Side::Back, 24);
                assert_eq!(raw::mtr_by_value_roster(state, entry.cast(), 1), 0);
            }
            "read before" => drop(front.sub(1).read_volatile()),
            "read after" => drop(back.add(512).read_volatile()),
            "write before" => front.sub(1).write_volatile(1),
            "write after" => back.add(512).write_volatile(1),
            "write while read-only" => page.read_only(|| back.write_volatile(1)),
            "library reads before" => drop(raw::mtr_by_value_read_block(front.sub(1), 512, 0)),
            "library reads after" => drop(raw::mtr_by_value_read_block(back.add(1), 512, 0)),
            "library writes after" => {
                raw::mtr_by_value_write_block(back.add(1), 512, 0, raw::Records::default(), 0);
            }
            "library fills after" => {
                let entry = page.at(Side::Back, 16);
                raw::mtr_by_value_roster(state, entry.cast(), 1);
            }
            _ => panic!("no touch {name}"),
        }
    }
}

/// A byte next to the page, touched by a child of this program, ends the child by SIGSEGV. The library's own
/// reads and writes are caught as well. Without such a touch the child ends well.
#[test]
fn the_guard_catches() {
    if let Ok(name) = std::env::var(TOUCH) {
        return touch(&name);
    }
    let program = std::env::current_exe().unwrap();
    for (name, fatal) in TOUCHES {
        let child = Command::new(&program)
            .args(["--exact", "hostile::the_guard_catches"])
            .env(TOUCH, name)
            .output()
            .unwrap();
        let text = String::from_utf8_lossy(&child.stdout);
        assert!(text.contains("running 1 test"), "{name}: {text}");
        let ended = (child.status.signal(), child.status.code());
        let wanted = if fatal {
            (Some(11), None)
        } else {
            (None, Some(0))
        };
        assert_eq!(ended, wanted, "{name}: {text}");
    }
}
