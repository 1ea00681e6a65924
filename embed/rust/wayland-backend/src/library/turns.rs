//! Which of several threads reads.

use numbyroga_sys as sys;

use super::{answer, done};

/// Who has prepared a reading, and whose turn it is to read. All calls are made under one lock.
#[derive(Debug, Default)]
pub(crate) struct Turns(sys::nb_readers);

impl Turns {
    /// Prepares a reading, unless events wait for the caller, or 2^64 turns have ended. Answers whether it did: then the
    /// caller has to begin or to cancel it.
    pub(crate) fn prepare(&mut self, has_events: bool) -> bool {
        answer(sys::nb_readers_prepare(&mut self.0, has_events.into())).is_ok()
    }

    /// Begins a prepared reading. If the answer is `None`, the caller reads, and ends that. Else it waits until
    /// [`Turns::ended`] is another number than this.
    pub(crate) fn begin(&mut self) -> Option<u64> {
        let mut turn = sys::nb_turn::default();
        done(sys::nb_readers_begin(&mut self.0, &mut turn));
        (turn.reads == 0).then_some(turn.ended)
    }

    /// Ends the reading, and so the turn: those that wait are to be woken.
    pub(crate) fn end(&mut self) {
        done(sys::nb_readers_end(&mut self.0));
    }

    /// Gives a prepared reading up. Answers whether the turn ends by that: then those that wait are to be woken.
    pub(crate) fn cancel(&mut self) -> bool {
        let mut ends = 0;
        done(sys::nb_readers_cancel(&mut self.0, &mut ends));
        ends != 0
    }

    /// How many turns have ended.
    pub(crate) fn ended(&self) -> u64 {
        let mut ended = 0;
        done(sys::nb_readers_ended(&self.0, &mut ended));
        ended
    }
}
