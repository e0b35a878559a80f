//! The lanes and the lines above some of them, in their order and place.

use crate::codec::GROUPS;
use crate::track::Survey;

/// Where labels begin.
pub const MARGIN: f64 = 16.0;
/// A level of groups moves its lanes' labels in by so much.
pub const INDENT: f64 = 10.0;
/// Above the bar of a lane with changes of its reservation.
const CHANGES: f64 = 13.0;
/// Height of a group's line, and of that of the best-effort threads.
const GROUP: f64 = 22.0;
const BEST_EFFORT: f64 = 30.0;

/// A thread's lane: the bar of who has the core, its wakes below it.
#[derive(Clone, Copy, Debug)]
pub struct Lane {
    pub thread: u8,
    pub top: f64,
    pub bar: f64,
    /// Where its label begins.
    pub label: f64,
}

/// A group's line above its lanes, and where the last of them ends.
#[derive(Clone, Copy, Debug)]
pub struct Heading {
    pub group: u8,
    pub depth: usize,
    pub top: f64,
    pub bottom: f64,
}

/// What stands beside the plot, from above. A lane is moved in by a level more
/// than the group that it stands in.
#[derive(Clone, Copy, Debug, PartialEq, Eq)]
pub enum Row {
    Group { group: u8, depth: usize },
    BestEffort,
    Thread { thread: u8, level: usize },
}

/// Lanes of reserved threads, then those of best-effort threads below a line of
/// their own.
pub fn rows(survey: &Survey) -> Vec<Row> {
    let effort = |&n: &u8| survey.threads[n as usize].best_effort;
    let (efforts, reserved): (Vec<u8>, Vec<u8>) = survey.admitted().partition(effort);
    let mut rows = reserved_rows(survey, &reserved);
    if !efforts.is_empty() {
        rows.push(Row::BestEffort);
        rows.extend(efforts.into_iter().map(lane));
    }
    rows
}

/// A lane in no group.
fn lane(thread: u8) -> Row {
    Row::Thread { thread, level: 0 }
}

/// Lanes in the order of their numbers or, if groups were opened, group by
/// group down the tree.
fn reserved_rows(survey: &Survey, numbers: &[u8]) -> Vec<Row> {
    if survey.groups.iter().all(Option::is_none) {
        return numbers.iter().copied().map(lane).collect();
    }
    // Parents have lower numbers.
    let mut shown = [false; GROUPS];
    for group in (0..GROUPS).rev() {
        let lanes = numbers
            .iter()
            .any(|&n| survey.threads[n as usize].group as usize == group);
        let entry = survey.groups[group];
        shown[group] |= lanes || entry.is_some_and(|entry| entry.open);
        if let Some(entry) = entry.filter(|_| shown[group]) {
            shown[entry.parent as usize] = true;
        }
    }
    let mut rows = Vec::new();
    below(survey, numbers, &shown, (0, 0), &mut rows);
    rows
}

/// A group's line, its lanes and the groups below it.
fn below(
    survey: &Survey,
    numbers: &[u8],
    shown: &[bool; GROUPS],
    (group, depth): (u8, usize),
    rows: &mut Vec<Row>,
) {
    rows.push(Row::Group { group, depth });
    for &thread in numbers {
        if survey.threads[thread as usize].group == group {
            let level = depth + 1;
            rows.push(Row::Thread { thread, level });
        }
    }
    for child in group + 1..GROUPS as u8 {
        let entry = survey.groups[child as usize];
        if shown[child as usize] && entry.is_some_and(|entry| entry.parent == group) {
            below(survey, numbers, shown, (child, depth + 1), rows);
        }
    }
}

/// Rows below each other, and where they end.
pub struct Stack {
    pub groups: Vec<Heading>,
    pub best_effort: Option<f64>,
    pub lanes: Vec<Lane>,
    pub end: f64,
}

pub fn stack(rows: &[Row], survey: &Survey, top: f64, pitch: f64, bar: f64) -> Stack {
    let mut y = top;
    let (mut groups, mut lanes): (Vec<Heading>, Vec<Lane>) = (Vec::new(), Vec::new());
    let mut best_effort = None;
    for row in rows {
        match *row {
            Row::Group { group, depth } => {
                groups.push(Heading {
                    group,
                    depth,
                    top: y,
                    bottom: y + GROUP,
                });
                y += GROUP;
            }
            Row::BestEffort => {
                best_effort = Some(y);
                y += BEST_EFFORT;
            }
            Row::Thread { thread, level } => {
                if survey.threads[thread as usize].changes > 0 {
                    y += CHANGES;
                }
                lanes.push(Lane {
                    thread,
                    top: y,
                    bar,
                    label: MARGIN + level as f64 * INDENT,
                });
                y += pitch;
            }
        }
    }
    // A group reaches down to the next line that is not below it.
    let end = best_effort.unwrap_or(y);
    for i in 0..groups.len() {
        let depth = groups[i].depth;
        let next = groups[i + 1..].iter().find(|later| later.depth <= depth);
        groups[i].bottom = next.map_or(end, |later| later.top) - 6.0;
    }
    Stack {
        groups,
        best_effort,
        lanes,
        end: y,
    }
}
