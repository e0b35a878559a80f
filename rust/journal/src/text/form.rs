//! A record as a line: every kind with its words and fields.

use std::io::Write;

use crate::codec::{kind, Record};

use super::line::{end, expect, follows, number, shown, Words};

/// A field of a record as text: the word before it, what it is called in a
/// message, and its place in the record. One that may be left out is the last;
/// where it is 0 it is not written.
struct Field {
    word: Option<&'static str>,
    name: &'static str,
    of: Of,
    left_out: bool,
}

#[derive(Clone, Copy)]
enum Of {
    Subject,
    Group,
    Amount,
    Ticks,
    Overrun,
}

impl Of {
    fn most(self) -> u64 {
        match self {
            Of::Subject | Of::Group => u8::MAX as u64,
            Of::Amount | Of::Overrun => u16::MAX as u64,
            Of::Ticks => u32::MAX as u64,
        }
    }

    fn get(self, r: &Record) -> u64 {
        match self {
            Of::Subject => r.subject as u64,
            Of::Group => r.group as u64,
            Of::Amount => r.amount as u64,
            Of::Ticks => r.ticks as u64,
            Of::Overrun => r.overrun as u64,
        }
    }

    /// The value is at most [`Of::most`].
    fn set(self, r: &mut Record, value: u64) {
        match self {
            Of::Subject => r.subject = value as u8,
            Of::Group => r.group = value as u8,
            Of::Amount => r.amount = value as u16,
            Of::Ticks => r.ticks = value as u32,
            Of::Overrun => r.overrun = value as u16,
        }
    }
}

/// A kind of record as text: its word and its fields in their order. Kinds with
/// the same word begin with the same field; the word after it tells them apart.
struct Form {
    kind: u8,
    word: &'static str,
    fields: &'static [Field],
}

const fn first(name: &'static str) -> Field {
    Field {
        word: None,
        name,
        of: Of::Subject,
        left_out: false,
    }
}

const fn named(word: &'static str, of: Of) -> Field {
    Field {
        word: Some(word),
        name: word,
        of,
        left_out: false,
    }
}

const fn or_none(word: &'static str, of: Of) -> Field {
    Field {
        left_out: true,
        ..named(word, of)
    }
}

/// Every kind but the report, whose reason is a word of its own. Those with the
/// same word stand beside each other.
static FORMS: [Form; 9] = [
    Form {
        kind: kind::START,
        word: "start",
        fields: &[
            named("thousandth", Of::Amount),
            named("interval", Of::Ticks),
            or_none("overrun", Of::Overrun),
        ],
    },
    Form {
        kind: kind::OPEN,
        word: "open",
        fields: &[
            first("group"),
            named("parent", Of::Group),
            named("ceiling", Of::Amount),
        ],
    },
    Form {
        kind: kind::CLOSE,
        word: "close",
        fields: &[first("group")],
    },
    Form {
        kind: kind::ADMIT,
        word: "admit",
        fields: &[
            first("thread"),
            named("group", Of::Group),
            named("reservation", Of::Amount),
        ],
    },
    Form {
        kind: kind::BEST_EFFORT,
        word: "admit",
        fields: &[first("thread"), named("weight", Of::Amount)],
    },
    Form {
        kind: kind::REMOVE,
        word: "remove",
        fields: &[first("thread")],
    },
    Form {
        kind: kind::WAKE,
        word: "wake",
        fields: &[first("thread")],
    },
    Form {
        kind: kind::CHANGE,
        word: "change",
        fields: &[first("thread"), named("reservation", Of::Amount)],
    },
    Form {
        kind: kind::DISPATCH,
        word: "dispatch",
        fields: &[],
    },
];

const REPORT: &str = "report";
/// The reasons of a report that have a word, from 0.
const REASONS: [&str; 4] = ["tick", "block", "yield", "exit"];
/// Stands before a reason given as a number.
const REASON: &str = "reason";

/// Appends a record's line, without its end.
pub fn put_record(out: &mut Vec<u8>, r: &Record) {
    // Writing to a vector does not fail.
    let _ = if r.kind == kind::REPORT {
        match REASONS.get(r.reason as usize) {
            Some(reason) => write!(out, "{REPORT} {reason} {}", r.ticks),
            None => write!(out, "{REPORT} {REASON} {} {}", r.reason, r.ticks),
        }
    } else if let Some(form) = FORMS.iter().find(|form| form.kind == r.kind) {
        out.extend_from_slice(form.word.as_bytes());
        form.fields
            .iter()
            .try_for_each(|field| match (field.word, field.of.get(r)) {
                (_, 0) if field.left_out => Ok(()),
                (Some(word), value) => write!(out, " {word} {value}"),
                (None, value) => write!(out, " {value}"),
            })
    } else {
        Ok(())
    };
}

fn get_report(words: &mut Words) -> Result<Record, String> {
    let reason = match words.next() {
        None => return Err("the line ends before the reason".into()),
        Some(word) => match REASONS.iter().position(|r| r.as_bytes() == word) {
            Some(reason) => reason as u8,
            None if word == REASON.as_bytes() => {
                number(words.next(), "the reason", u8::MAX as u64)? as u8
            }
            None => {
                return Err(format!(
                    "{} is no reason: tick, block, yield, exit, or reason and a number",
                    shown(word)
                ))
            }
        },
    };
    Ok(Record {
        kind: kind::REPORT,
        reason,
        ticks: number(words.next(), "the ticks", u32::MAX as u64)? as u32,
        ..Record::default()
    })
}

/// The forms of the lines that begin with a word.
fn forms(word: &[u8]) -> Option<&'static [Form]> {
    let of_it = |form: &Form| form.word.as_bytes() == word;
    let first = FORMS.iter().position(of_it)?;
    let more = FORMS[first..].iter().take_while(|form| of_it(form));
    Some(&FORMS[first..first + more.count()])
}

fn get_fields(mut forms: &[Form], words: &mut Words) -> Result<Record, String> {
    let mut record = Record::default();
    let mut i = 0;
    while let Some(field) = forms[0].fields.get(i) {
        if let Some(word) = field.word {
            if !field.left_out {
                // Each of the forms has a word here, which tells it from the others.
                let wanted = forms.iter().filter_map(|form| form.fields[i].word);
                let found = expect(words, wanted)?;
                forms = &forms[found..=found];
            } else if !follows(words, word)? {
                break;
            }
        }
        let field = &forms[0].fields[i];
        let name = match field.word {
            Some(_) => field.name.to_string(),
            None => format!("the {}", field.name),
        };
        let value = number(words.next(), &name, field.of.most())?;
        field.of.set(&mut record, value);
        i += 1;
    }
    end(words)?;
    record.kind = forms[0].kind;
    Ok(record)
}

/// The record of a line that begins with `word`, and none if no record does.
pub(super) fn get_record(word: &[u8], words: &mut Words) -> Option<Result<Record, String>> {
    if word == REPORT.as_bytes() {
        return Some(get_report(words).and_then(|record| end(words).map(|()| record)));
    }
    Some(get_fields(forms(word)?, words))
}
