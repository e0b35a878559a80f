//! Words for answers.

use crate::codec::{answer, kind, Record};
use crate::engine::{Class, Engine};

/// Why a record was refused, by the engine that refused it. Overruns are spoken
/// of where the record or the settings allow some.
pub fn refusal<E: Engine>(record: &Record, number: u32, engine: &E) -> &'static str {
    let late = match record.kind {
        kind::START => record.overrun > 0,
        _ => engine.settings().overrun > 0,
    };
    let class = engine.class(record.subject);
    match (number, record.kind) {
        (answer::SETTINGS, _) if late => "m, P or O outside its range",
        (answer::SETTINGS, _) => "m or P outside its range",
        (answer::GROUP, kind::OPEN) => "the parent is above 15 or not open",
        (answer::GROUP, kind::CLOSE) => "the group is 0, above 15 or not open",
        (answer::GROUP, _) => "the group is above 15 or not open",
        (answer::GROUP_NUMBER, _) => {
            "the number is above 15, already open or not above the parent's"
        }
        (answer::AMOUNT, kind::OPEN) => "ceiling outside 1 to 1000",
        (answer::AMOUNT, kind::BEST_EFFORT) => "weight outside 1 to 16",
        (answer::AMOUNT, _) => "reservation outside 1 to 1000",
        (answer::ROOM, kind::OPEN) => "more than the parent has free",
        (answer::ROOM, kind::CHANGE) => "more than the group has free, its own included",
        (answer::ROOM, _) => "more than the group has free",
        (answer::GROUP_IN_USE, _) => "the group has a thread or a child",
        (answer::THREAD, kind::ADMIT | kind::BEST_EFFORT) => "number above 63",
        (answer::THREAD, kind::CHANGE) if class.is_some_and(Class::is_best_effort) => {
            "a best-effort thread has no reservation"
        }
        (answer::THREAD, _) => "number above 63 or not admitted",
        (answer::ADMITTED, _) => "already admitted",
        (answer::RUNS, _) => "it is running",
        (answer::NOT_BLOCKED, _) => "it is not blocked",
        (answer::NOTHING_RUNS, _) => "nothing is running",
        (answer::A_THREAD_RUNS, _) => "a thread is running",
        (answer::USED, _) if late => "more used than the slice and O",
        (answer::USED, _) => "more used than the slice",
        (answer::REASON, _) => "reason above 3",
        (answer::METER, _) => "the meter is at its limit",
        (answer::UNSOUND, _) => "the state is not sound",
        (answer::NOT_STARTED, _) => {
            "not run: a block is damaged or missing and no start accepted since"
        }
        _ => damage(number),
    }
}

/// Why a block was refused.
pub fn damage(number: u32) -> &'static str {
    match number {
        answer::LENGTH => "not 512 bytes",
        answer::CHECK => "check wrong",
        answer::FORM => "not the bytes of this block number and well-formed records",
        _ => "refused",
    }
}
