//! Refusals in words.

use crate::scale::{count, counted, exact};

use super::layout::{MOST_WORDS, WORDS};
use super::picture::Picture;
use super::svg::{fit, Anchor};

impl Picture<'_> {
    /// A line for each number and its words: how often, and where first.
    pub(super) fn refusal_words(&mut self) {
        let s = self.survey;
        if s.refusals.is_empty() {
            return;
        }
        let l = self.layout;
        self.svg
            .text(16.0, l.key, Anchor::Start, "heading", "Refusals");
        let mut y = l.key;
        let kinds = s.refusals.len();
        for (i, ((answer, words), r)) in s.refusals.iter().enumerate() {
            y += WORDS;
            if i + 1 == MOST_WORDS && kinds > MOST_WORDS {
                let more = counted((kinds - i) as u64, "other kind");
                let text = format!("and {more}: journal stats names them");
                self.svg.text(44.0, y, Anchor::Start, "quiet", &text);
                return;
            }
            let number = answer.to_string();
            self.svg.text(38.0, y, Anchor::End, "number", &number);
            let times = match r.count {
                1 => format!("at record {}", count(r.record)),
                n => format!("{} times, first at record {}", count(n), count(r.record)),
            };
            let text = format!("{words}: {times}, {}", exact(r.at));
            let shown = fit(&text, 12.0, l.width - 52.0);
            self.svg.titled(44.0, y, "quiet", &shown, &text);
        }
    }
}
