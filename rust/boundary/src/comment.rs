//! The comment on an exported function, in its parts. It has this form:
//!
//! ```text
//! What it does. Refused: 16, the state is not sound; 2, the group is not open.
//! What is then unchanged, and what otherwise.
//! ```

use crate::interface::Constant;
use crate::names::{NOT_STARTED, REFUSED};
use crate::parse::Function;
use crate::Error;

#[derive(Clone, Debug, PartialEq, Eq)]
pub struct Comment {
    /// What the function does.
    pub does: String,
    /// What is refused, in the order of the checks.
    pub refuses: Vec<Refusal>,
    /// What is unchanged, after a refusal and otherwise.
    pub leaves: String,
}

/// A refusal of a function: its number, its name and the reason.
#[derive(Clone, Debug, PartialEq, Eq)]
pub struct Refusal {
    pub number: u64,
    pub name: String,
    pub reason: String,
}

/// The parts of a function's comment. One that leaves a part out, or has a
/// number that is none of the answers, is refused.
pub fn comment(file: &str, f: &Function, answers: &[Constant]) -> Result<Comment, Error> {
    let error = |text: &str| {
        let text = format!("the comment on {} {text}", f.name);
        Error::at(file, f.line, text)
    };
    let text = f.doc.join(" ");
    let Some((does, rest)) = text.split_once(" Refused: ") else {
        return Err(error("does not say what is refused"));
    };
    let unchanged = rest
        .split_once(". ")
        .filter(|(_, leaves)| leaves.contains("unchanged"));
    let Some((list, leaves)) = unchanged else {
        return Err(error("does not say what is unchanged"));
    };
    let mut refuses = Vec::new();
    for part in list.split("; ").filter(|_| list != "nothing") {
        let Some((number, reason)) = part.split_once(", ") else {
            return Err(error(&format!(
                "has `{part}` where a number and a reason should stand"
            )));
        };
        let known = number.parse().ok().and_then(|n| refusal(n, answers));
        match known {
            Some(answer) => refuses.push(Refusal {
                number: answer.value,
                name: answer.name.clone(),
                reason: reason.to_string(),
            }),
            None => return Err(error(&format!("has the unknown refusal `{number}`"))),
        }
    }
    Ok(Comment {
        does: does.to_string(),
        refuses,
        leaves: leaves.to_string(),
    })
}

/// The refusal of a number, of those that a function can give.
fn refusal(number: u64, answers: &[Constant]) -> Option<&Constant> {
    let mut refusals = answers
        .iter()
        .filter(|a| a.name.starts_with(REFUSED) && a.name != NOT_STARTED);
    refusals.find(|a| a.value == number)
}

#[cfg(test)]
mod tests {
    use super::*;

    fn of(doc: &str) -> Result<Comment, String> {
        let f = Function {
            doc: doc.lines().map(str::to_string).collect(),
            name: "mtr_do".to_string(),
            parameters: Vec::new(),
            result: None,
            line: 3,
        };
        comment("a.rt", &f, &answers()).map_err(|e| e.to_string())
    }

    fn answers() -> Vec<Constant> {
        [
            ("ACCEPTED", 0),
            ("REFUSED_NO_GROUP", 2),
            ("REFUSED_UNSOUND", 16),
            ("REFUSED_LENGTH", 17),
            (NOT_STARTED, 20),
        ]
        .map(|(name, value)| Constant {
            name: name.to_string(),
            value,
            doc: String::new(),
        })
        .to_vec()
    }

    #[test]
    fn parts() {
        let found = of(
            "Does it. Twice. Refused: 17, too\nshort; 2, none, or no. It is\nunchanged. All is.",
        )
        .unwrap();
        assert_eq!(found.does, "Does it. Twice.");
        let refuses = [
            (17, "REFUSED_LENGTH", "too short"),
            (2, "REFUSED_NO_GROUP", "none, or no"),
        ];
        let refuses = refuses.map(|(number, name, reason)| Refusal {
            number,
            name: name.to_string(),
            reason: reason.to_string(),
        });
        assert_eq!(found.refuses, refuses);
        assert_eq!(found.leaves, "It is unchanged. All is.");
        let found = of("Does. Refused: nothing. All is unchanged.").unwrap();
        assert_eq!(found.refuses, []);
    }

    #[test]
    fn parts_left_out() {
        for (doc, wanted) in [
            ("Does.", "does not say what is refused"),
            ("Does. Refused: 16, no.", "does not say what is unchanged"),
            (
                "Does. Refused: 16, no. The end.",
                "does not say what is unchanged",
            ),
            (
                "Does. Refused: 16; 2, no. It is unchanged.",
                "has `16` where a number and a reason should stand",
            ),
            (
                "Does. Refused: 16, a; b. It is unchanged.",
                "has `b` where a number and a reason should stand",
            ),
            (
                "Does. Refused: 77, no. It is unchanged.",
                "has the unknown refusal `77`",
            ),
            (
                "Does. Refused: x, no. It is unchanged.",
                "has the unknown refusal `x`",
            ),
            (
                "Does. Refused: 0, no. It is unchanged.",
                "has the unknown refusal `0`",
            ),
            (
                "Does. Refused: 20, no. It is unchanged.",
                "has the unknown refusal `20`",
            ),
        ] {
            assert_eq!(
                of(doc),
                Err(format!("a.rt:3: the comment on mtr_do {wanted}"))
            );
        }
    }
}
