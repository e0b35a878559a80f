//! Changes of reservations.

use crate::engine::{bound, Class};

use super::sink::{Change, Sink};
use super::Tracker;

impl<S: Sink> Tracker<'_, S> {
    /// A reserved thread that does not run has another reservation. It goes on
    /// with what it does; its lag is counted afresh.
    pub(super) fn changes(&mut self, n: usize, new: u64, record: u64) {
        self.finish(n);
        let at = self.at;
        let Some(alive) = &mut self.alive[n] else {
            return;
        };
        let Class::Reserved { reservation, .. } = &mut alive.class else {
            return;
        };
        let old = std::mem::replace(reservation, new);
        let piece = alive.piece;
        // No yield or wake stands between what has ended here and the change.
        let goes_on = |span| (piece.lag, piece.bound) == span;
        let span = alive.held.map(|span| (span.last_lag(), span.last_bound));
        if piece.from < at.time || span.is_some_and(goes_on) {
            alive.parted = Some(at.time);
        }
        let settings = alive.settings;
        self.unbind(n);
        self.begins(n, piece.what, 0, record);
        if let Some(alive) = &mut self.alive[n] {
            alive.piece.begun = piece.begun;
        }
        self.sink.change(&Change {
            thread: n as u8,
            at,
            record,
            old,
            new,
            old_bound: bound(old, settings),
            new_bound: bound(new, settings),
        });
    }
}
