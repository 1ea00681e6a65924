//! From a socket into a session.

use std::collections::VecDeque;
use std::mem;
use std::os::fd::{AsRawFd, BorrowedFd, IntoRawFd, OwnedFd};

use rustix::io::Errno;
use smallvec::SmallVec;

use super::frames::Frames;
use super::{Status, MOST_DESCRIPTORS};
use crate::socket;

/// What has come over a connection.
#[derive(Debug, Default)]
pub(crate) struct Inbox {
    /// Descriptors for which the session has no room until it has read those that it has, and the bytes that they came with. There
    /// are none almost always: what came is read before more is received.
    descriptors: VecDeque<OwnedFd>,
    bytes: Vec<u8>,
    /// How many descriptors have come.
    came: usize,
    frames: Frames,
    fault: Option<Errno>,
}

/// What one receive from a socket brought.
#[derive(Clone, Copy, Debug, PartialEq, Eq)]
pub(crate) enum Received {
    /// The socket had nothing.
    Nothing,
    /// All that the socket had.
    All,
    /// As much as there was room for, or the end of the stream. Take what it brought, and receive again.
    Some,
}

/// What one receive from a socket brought, and how much.
#[derive(Clone, Copy, Debug)]
pub(crate) struct Receipt {
    pub(crate) received: Received,
    /// How many bytes.
    pub(crate) bytes: usize,
    /// How many messages have come as a whole by it.
    pub(crate) messages: usize,
    /// How many messages the session can hand out now, at most, if nothing is wrong with the connection.
    pub(crate) most: usize,
}

impl Receipt {
    /// Nothing came.
    pub(crate) const NOTHING: Receipt = Receipt {
        received: Received::Nothing,
        bytes: 0,
        messages: 0,
        most: usize::MAX,
    };
}

/// How a stream has ended. The session is to be told so.
pub(super) enum Ending {
    Ended,
    Failed(Errno),
}

impl Inbox {
    /// Receives once from the socket, by way of a buffer, and of another one for control data. `arrive` hands bytes and
    /// descriptors to the session.
    #[inline]
    pub(super) fn receive(
        &mut self,
        from: BorrowedFd<'_>,
        (buffer, control): (&mut [u8], &mut [u8]),
        mut arrive: impl FnMut(&[u8], &[i32]) -> Result<(), Status>,
    ) -> (Receipt, Option<Ending>) {
        let some = Receipt {
            received: Received::Some,
            ..Receipt::NOTHING
        };
        if !self.descriptors.is_empty() {
            // The session has read all that it could. If it has no room for these all the same, no message takes those that it
            // has: then the other side has broken the protocol.
            let bytes = mem::take(&mut self.bytes);
            let is_stuck = !self.hand_over(&bytes, arrive);
            return (some, is_stuck.then(|| self.fail(Errno::PROTO)));
        }
        let count = match socket::receive(from, buffer, control, &mut self.descriptors) {
            Ok(0) => return (some, Some(Ending::Ended)),
            Ok(count) => count,
            Err(Errno::AGAIN) => return (Receipt::NOTHING, None),
            Err(error) => return (some, Some(self.fail(error))),
        };
        let bytes = &buffer[..count];
        let mut receipt = Receipt {
            bytes: count,
            messages: self.frames.push(bytes),
            ..some
        };
        if !self.descriptors.is_empty() {
            self.came += self.descriptors.len();
            if !self.hand_over(bytes, arrive) {
                self.bytes.extend_from_slice(bytes);
            }
            return (receipt, None);
        }
        // The error is that the client is gone.
        let is_taken = arrive(bytes, &[]).is_ok();
        if is_taken && count < buffer.len() {
            receipt.received = Received::All;
            // What came before was handed out, or waits for a descriptor. Of a message that is cut the session may see
            // that it is wrong.
            if self.frames.is_between() {
                receipt.most = receipt.messages;
            }
        }
        (receipt, None)
    }

    /// Hands over bytes, and the descriptors that have come with them. Answers whether they are the session's now, or nobody's, since
    /// the client is gone; else nothing was handed over. More may be there: the kernel ends a receive behind descriptors.
    #[cold]
    fn hand_over(
        &mut self,
        bytes: &[u8],
        mut arrive: impl FnMut(&[u8], &[i32]) -> Result<(), Status>,
    ) -> bool {
        let mut numbers = SmallVec::<[i32; MOST_DESCRIPTORS]>::new();
        for descriptor in &self.descriptors {
            numbers.push(descriptor.as_raw_fd());
        }
        match arrive(bytes, &numbers) {
            Ok(()) => {
                for descriptor in self.descriptors.drain(..) {
                    let _ = descriptor.into_raw_fd();
                }
            }
            Err(Status::TOO_MANY_DESCRIPTORS) => return false,
            Err(_) => self.descriptors.clear(),
        }
        true
    }

    #[cold]
    fn fail(&mut self, error: Errno) -> Ending {
        self.descriptors.clear();
        self.fault = Some(error);
        Ending::Failed(error)
    }

    /// How many descriptors have come so far.
    pub(crate) fn came(&self) -> usize {
        self.came
    }

    /// Why receiving failed.
    pub(crate) fn fault(&self) -> Option<Errno> {
        self.fault
    }
}

#[cfg(test)]
mod tests {
    use std::fs::File;
    use std::os::fd::AsFd;
    use std::os::unix::net::UnixStream;

    use super::*;
    use crate::socket::CONTROL_ROOM;

    #[test]
    fn it_is_known_how_many_messages_there_are_if_none_is_cut_and_no_descriptor_came() {
        const MESSAGE: [u8; 8] = [1, 0, 0, 0, 0, 0, 8, 0];
        let (ours, theirs) = UnixStream::pair().unwrap();
        let mut inbox = Inbox::default();
        let mut receive = |expected_received, bytes: &[u8], descriptors: &[BorrowedFd<'_>]| {
            socket::send_with(theirs.as_fd(), bytes, descriptors).unwrap();
            let (buffer, control) = (&mut [0; 64][..], &mut [0; CONTROL_ROOM][..]);
            let (receipt, ending) = inbox.receive(ours.as_fd(), (buffer, control), |came, _| {
                assert_eq!(came, bytes);
                Ok(())
            });
            assert!(ending.is_none());
            assert_eq!(
                (receipt.received, receipt.bytes),
                (expected_received, bytes.len())
            );
            (receipt.messages, receipt.most)
        };
        let two = [MESSAGE, MESSAGE].concat();
        assert_eq!(receive(Received::All, &two, &[]), (2, 2));
        assert_eq!(receive(Received::All, &two[..11], &[]), (1, usize::MAX));
        assert_eq!(receive(Received::All, &two[3..], &[]), (2, 2));
        let descriptor = File::open("/dev/null").unwrap();
        let came = receive(Received::Some, &two, &[descriptor.as_fd()]);
        assert_eq!(came, (2, usize::MAX));
        let many = MESSAGE.repeat(8);
        assert_eq!(receive(Received::Some, &many, &[]), (8, usize::MAX));
    }

    #[test]
    fn descriptors_for_which_there_is_no_room_wait_with_their_bytes() {
        let (ours, theirs) = UnixStream::pair().unwrap();
        let descriptor = File::open("/dev/null").unwrap();
        let mut inbox = Inbox::default();
        let mut receive = |answer| {
            let (buffer, control) = (&mut [0; 64][..], &mut [0; CONTROL_ROOM][..]);
            let mut came = None;
            let (receipt, ending) =
                inbox.receive(ours.as_fd(), (buffer, control), |bytes, descriptors| {
                    came = Some((bytes.to_vec(), descriptors.len()));
                    answer
                });
            (receipt.received, ending.is_some(), came)
        };
        let both = Some((b"some".to_vec(), 2));
        let full = Err(Status::TOO_MANY_DESCRIPTORS);
        let two = [descriptor.as_fd(), descriptor.as_fd()];
        socket::send_with(theirs.as_fd(), b"some", &two).unwrap();
        socket::send_with(theirs.as_fd(), b"more", &[]).unwrap();
        assert_eq!(receive(full), (Received::Some, false, both.clone()));
        assert_eq!(receive(Ok(())), (Received::Some, false, both.clone()));
        let rest = Some((b"more".to_vec(), 0));
        assert_eq!(receive(Ok(())), (Received::All, false, rest));
        // Where there is no room after a reading either, none will come.
        socket::send_with(theirs.as_fd(), b"some", &two).unwrap();
        assert_eq!(receive(full), (Received::Some, false, both.clone()));
        assert_eq!(receive(full), (Received::Some, true, both));
    }
}
