//! Memory for what is on its way between a socket and a session.

use std::cell::Cell;

use numbyroga_sys as sys;

use super::FIRST_TRY;
use crate::socket::CONTROL_ROOM;

/// How many bytes a thread's memory has at first. It grows to as much as a session takes or gives at once.
const FIRST: usize = 4096;

/// Room for the bytes of one receive or send, and for the control data of a receive.
#[derive(Debug)]
pub(super) struct Transit {
    bytes: Vec<u8>,
    control: Vec<u8>,
}

impl Transit {
    fn first() -> Transit {
        Transit {
            bytes: vec![0; FIRST],
            control: vec![0; CONTROL_ROOM],
        }
    }

    /// As much as a session takes or gives at once.
    pub(super) fn whole() -> Transit {
        Transit {
            bytes: vec![0; sys::NB_MOST_BYTES],
            control: vec![0; CONTROL_ROOM],
        }
    }

    /// Room for one receive, and for its control data.
    #[inline]
    pub(super) fn receiving(&mut self) -> (&mut [u8], &mut [u8]) {
        (&mut self.bytes, &mut self.control)
    }

    /// Room for one send: little, if the socket took nothing the last time.
    #[inline]
    pub(super) fn sending(&mut self, is_full: bool) -> &mut [u8] {
        let most = if is_full { FIRST_TRY } else { usize::MAX };
        let room = self.bytes.len().min(most);
        &mut self.bytes[..room]
    }

    /// So many bytes have passed by one call. If these were all that there is room for, there will be more the next time.
    #[inline]
    pub(super) fn passed(&mut self, count: usize) {
        if count == self.bytes.len() && count < sys::NB_MOST_BYTES {
            self.bytes.resize((4 * count).min(sys::NB_MOST_BYTES), 0);
        }
    }
}

thread_local! {
    static OF_THREAD: Cell<Option<Box<Transit>>> = const { Cell::new(None) };
}

/// Calls with the memory of this thread, which serves all connections that the thread uses.
#[inline]
pub(super) fn with_transit<R>(call: impl FnOnce(&mut Transit) -> R) -> R {
    // There is none at first, and none any more where the thread ends.
    let kept = OF_THREAD.try_with(Cell::take).ok().flatten();
    let mut transit = kept.unwrap_or_else(|| Box::new(Transit::first()));
    let answer = call(&mut transit);
    let _ = OF_THREAD.try_with(|it| it.set(Some(transit)));
    answer
}

#[cfg(test)]
mod tests {
    use super::*;

    #[test]
    fn a_thread_has_more_room_when_all_of_it_was_used() {
        let room = || with_transit(|transit| transit.receiving().0.len());
        let pass = |count| with_transit(|transit| transit.passed(count));
        assert_eq!(room(), FIRST);
        pass(FIRST - 1);
        assert_eq!(room(), FIRST);
        pass(FIRST);
        assert_eq!(room(), 4 * FIRST);
        pass(4 * FIRST);
        pass(room());
        assert_eq!(room(), sys::NB_MOST_BYTES);
        assert_eq!(with_transit(|transit| transit.sending(false).len()), room());
        assert_eq!(
            with_transit(|transit| transit.sending(true).len()),
            FIRST_TRY
        );
    }

    #[test]
    fn a_thread_that_ends_has_room_all_the_same() {
        struct AtEnd;
        impl Drop for AtEnd {
            fn drop(&mut self) {
                assert_eq!(with_transit(|transit| transit.receiving().0.len()), FIRST);
            }
        }
        thread_local!(static AT_END: AtEnd = const { AtEnd });
        let ended = std::thread::spawn(|| {
            // What is used first is dropped last.
            AT_END.with(|_| ());
            with_transit(|transit| transit.passed(0));
        });
        assert!(ended.join().is_ok());
    }
}
