//! Which sockets can be read.

use std::fmt;
use std::os::fd::BorrowedFd;

use rustix::event::epoll::{self, EventFlags, EventVec};
use rustix::io::{retry_on_intr, Errno};

/// What the system tells of the sockets that an epoll watches by numbers.
pub(crate) struct Ready {
    events: EventVec,
    count: usize,
}

// SAFETY: an event may have a pointer, so `EventVec` is not sent or shared by itself. Here none is looked at: an event has
// its flags, and a number.
unsafe impl Send for Ready {}

// SAFETY: as above.
unsafe impl Sync for Ready {}

impl fmt::Debug for Ready {
    fn fmt(&self, f: &mut fmt::Formatter<'_>) -> fmt::Result {
        f.debug_struct("Ready").finish_non_exhaustive()
    }
}

impl Ready {
    /// Nothing is ready. So many sockets can be told of at once.
    pub(crate) fn with_room_for(most: usize) -> Ready {
        Ready {
            events: EventVec::with_capacity(most),
            count: 0,
        }
    }

    /// Asks which sockets are ready now.
    #[inline]
    pub(crate) fn wait(&mut self, poll: BorrowedFd<'_>) -> Result<(), Errno> {
        retry_on_intr(|| epoll::wait(poll, &mut self.events, 0))?;
        self.count = self.events.len();
        Ok(())
    }

    /// How many are.
    #[inline]
    pub(crate) fn count(&self) -> usize {
        self.count
    }

    /// The numbers of those that are, and what is ready.
    #[inline]
    pub(crate) fn iter(&self) -> impl Iterator<Item = (u64, EventFlags)> + '_ {
        let events = self.events.iter();
        events.map(|event| (event.data.u64(), event.flags))
    }
}
