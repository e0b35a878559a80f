//! Figures as comma-separated values.

use std::fmt::Write;

use crate::names::Names;

use super::{became, Figures};

impl Figures {
    /// The threads as comma-separated values. Times are in ticks, lags and
    /// bounds in thousandths of ticks.
    pub fn csv(&self, names: &Names) -> String {
        let mut out = String::from(
            "thread,name,group,reserved,share,lives,ticks,runs,wakes,refused,\
             longest_run,longest_run_at,longest_run_record,\
             longest_wait,longest_wait_at,longest_wait_record,\
             longest_block,longest_block_at,longest_block_record,\
             largest_lag,largest_lag_at,largest_lag_record,bound,at_the_end,\
             overruns,overrun,longest_overrun,longest_overrun_at,longest_overrun_record,\
             changes,reserved_at_first,last_change_at,last_change_record\n",
        );
        for row in self.rows(names) {
            let (n, t) = (row.thread, row.t);
            let name = quoted(names.given(n).unwrap_or_default());
            // A best-effort thread is in no group.
            let group = match t.reserved_lives {
                0 => String::new(),
                _ => t.group.to_string(),
            };
            let _ = write!(
                out,
                "{n},{name},{group},{},{},{},{},{},{},{}",
                t.reserved.last, t.share, t.lives, t.ticks, t.runs, t.wakes, t.refused
            );
            for longest in [t.longest_run, t.longest_wait, t.longest_block] {
                let _ = write!(out, ",{},{},{}", longest.ticks, longest.at, longest.record);
            }
            let g = t.largest;
            let _ = write!(
                out,
                ",{},{},{},{},{}",
                g.lag,
                g.at,
                g.record,
                g.bound,
                became(t.end)
            );
            let o = t.longest_overrun;
            let _ = write!(
                out,
                ",{},{},{},{},{}",
                t.overruns, t.overrun, o.ticks, o.at, o.record
            );
            let (at, record) = t
                .last_change
                .map_or((0, 0), |last| (last.time, last.record));
            let first = t.reserved.first;
            let _ = writeln!(out, ",{},{first},{at},{record}", t.changes);
        }
        out
    }

    /// What is told of best-effort threads alone, as comma-separated values:
    /// ticks of its last life as one and of all of them meanwhile; apart are the
    /// ticks of two, each times the other's weight.
    pub fn best_effort_csv(&self, names: &Names) -> String {
        let mut out = String::from(
            "thread,name,weight,by_weight,of_the_rest,ticks,ticks_of_all,\
             farthest_from,apart,limit,apart_at\n",
        );
        for row in self.rows(names) {
            let Some(portion) = row.portion else { continue };
            let (n, name) = (row.thread, names.given(row.thread).unwrap_or_default());
            let _ = write!(
                out,
                "{n},{},{},{},{},{},{}",
                quoted(name),
                portion.weight,
                row.by_weight(),
                portion.share(),
                portion.ticks,
                portion.of
            );
            let _ = match portion.farthest {
                Some(a) => writeln!(out, ",{},{},{},{}", a.other, a.ticks, a.limit, a.at),
                None => writeln!(out, ",,0,0,0"),
            };
        }
        out
    }

    /// The refusals as comma-separated values.
    pub fn refusals_csv(&self) -> String {
        let mut out = String::from("number,words,count,first_record,first_at\n");
        for ((answer, words), r) in &self.survey.refusals {
            let words = quoted(words);
            let _ = writeln!(out, "{answer},{words},{},{},{}", r.count, r.record, r.at);
        }
        out
    }
}

/// A field, in quotation marks if it needs them.
fn quoted(field: &str) -> String {
    match field.contains([',', '"', '\n', '\r']) {
        true => format!("\"{}\"", field.replace('"', "\"\"")),
        false => field.to_string(),
    }
}
