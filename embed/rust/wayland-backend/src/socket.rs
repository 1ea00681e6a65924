//! Bytes and descriptors over a Unix socket. No call waits, and each descriptor is closed on exec.

use std::collections::VecDeque;
use std::io::{IoSlice, IoSliceMut};
use std::mem::ManuallyDrop;
use std::os::fd::{BorrowedFd, OwnedFd};

use rustix::io::{retry_on_intr, Errno};
use rustix::net::{
    recvmsg, sendmsg, RecvAncillaryBuffer, RecvAncillaryMessage, RecvFlags, SendAncillaryBuffer,
    SendAncillaryMessage, SendFlags,
};

use crate::library::MOST_DESCRIPTORS;

/// As many descriptors as the kernel gives at once. If there were room for fewer, it would open some and tell of none.
const MOST_RECEIVED: usize = 253;

/// How many bytes of control data find room in one receive.
pub(crate) const CONTROL_ROOM: usize = rustix::cmsg_space!(ScmRights(MOST_RECEIVED));

/// Receives once, with `space` for control data: [`CONTROL_ROOM`] bytes. The answer is how many bytes came, 0 at the end of
/// the stream; the descriptors that came with them are appended.
///
/// The error is `AGAIN` if the socket has nothing. It is `PROTO` if the other side sent more descriptors at once than
/// Wayland allows, or if this process may open no more: then the stream has a hole.
pub(crate) fn receive(
    socket: BorrowedFd<'_>,
    buffer: &mut [u8],
    space: &mut [u8],
    descriptors: &mut VecDeque<OwnedFd>,
) -> Result<usize, Errno> {
    // All that comes is taken out of it, so there is nothing to be dropped.
    let mut control = ManuallyDrop::new(RecvAncillaryBuffer::new(space));
    let flags = RecvFlags::DONTWAIT | RecvFlags::CMSG_CLOEXEC;
    let parts = &mut [IoSliceMut::new(buffer)];
    let came = retry_on_intr(|| recvmsg(socket, parts, &mut control, flags))?;
    let before = descriptors.len();
    for message in control.drain() {
        if let RecvAncillaryMessage::ScmRights(rights) = message {
            descriptors.extend(rights);
        }
    }
    let is_cut = came.flags.bits() & CONTROL_TRUNCATED != 0;
    if is_cut || descriptors.len() - before > MOST_DESCRIPTORS {
        descriptors.truncate(before);
        return Err(Errno::PROTO);
    }
    Ok(came.bytes)
}

/// `MSG_CTRUNC`, which rustix does not name among the flags that it answers.
const CONTROL_TRUNCATED: u32 = 0x8;

/// How each send is made.
const SEND_FLAGS: SendFlags = SendFlags::DONTWAIT.union(SendFlags::NOSIGNAL);

/// Sends once. The answer is how many bytes were taken. The error is `AGAIN` if the socket takes nothing now.
#[inline]
pub(crate) fn send(socket: BorrowedFd<'_>, bytes: &[u8]) -> Result<usize, Errno> {
    retry_on_intr(|| rustix::net::send(socket, bytes, SEND_FLAGS))
}

/// The same with descriptors, which go with the first byte.
pub(crate) fn send_with(
    socket: BorrowedFd<'_>,
    bytes: &[u8],
    descriptors: &[BorrowedFd<'_>],
) -> Result<usize, Errno> {
    let mut space = [0; rustix::cmsg_space!(ScmRights(MOST_DESCRIPTORS))];
    let mut control = SendAncillaryBuffer::new(&mut space);
    control.push(SendAncillaryMessage::ScmRights(descriptors));
    let parts = &[IoSlice::new(bytes)];
    retry_on_intr(|| sendmsg(socket, parts, &mut control, SEND_FLAGS))
}

#[cfg(test)]
mod tests {
    use std::fs::File;
    use std::io::{Read, Seek, Write};
    use std::os::fd::AsFd;
    use std::os::unix::net::UnixStream;

    use super::*;

    fn pair() -> (UnixStream, UnixStream) {
        UnixStream::pair().unwrap()
    }

    fn control_room() -> Vec<u8> {
        vec![0; CONTROL_ROOM]
    }

    /// A file with this text.
    fn file(text: &str) -> File {
        let flags = rustix::fs::MemfdFlags::CLOEXEC;
        let mut file = File::from(rustix::fs::memfd_create("file", flags).unwrap());
        file.write_all(text.as_bytes()).unwrap();
        file
    }

    fn text_of(descriptor: OwnedFd) -> String {
        let mut file = File::from(descriptor);
        let mut text = String::new();
        file.rewind().unwrap();
        file.read_to_string(&mut text).unwrap();
        text
    }

    #[test]
    fn bytes_and_descriptors_come_in_their_order() {
        let (one, two) = pair();
        let (first, second) = (file("first"), file("second"));
        assert_eq!(
            send_with(one.as_fd(), b"bytes", &[first.as_fd(), second.as_fd()]),
            Ok(5)
        );
        assert_eq!(send(one.as_fd(), b"more"), Ok(4));
        let mut buffer = [0; 64];
        let mut descriptors = VecDeque::new();
        let mut came = Vec::new();
        while came.len() < 9 {
            let count = receive(
                two.as_fd(),
                &mut buffer,
                &mut control_room(),
                &mut descriptors,
            )
            .unwrap();
            came.extend_from_slice(&buffer[..count]);
        }
        assert_eq!(came, b"bytesmore");
        let texts: Vec<String> = descriptors.into_iter().map(text_of).collect();
        assert_eq!(texts, ["first", "second"]);
    }

    #[test]
    fn a_descriptor_that_came_is_closed_on_exec() {
        let (one, two) = pair();
        send_with(one.as_fd(), b"x", &[file("").as_fd()]).unwrap();
        let mut descriptors = VecDeque::new();
        receive(
            two.as_fd(),
            &mut [0; 8],
            &mut control_room(),
            &mut descriptors,
        )
        .unwrap();
        let flags = rustix::io::fcntl_getfd(&descriptors[0]).unwrap();
        assert!(flags.contains(rustix::io::FdFlags::CLOEXEC));
    }

    #[test]
    fn neither_call_waits() {
        let (one, two) = pair();
        let mut buffer = vec![0; 65536];
        let mut descriptors = VecDeque::new();
        assert_eq!(
            receive(
                two.as_fd(),
                &mut buffer,
                &mut control_room(),
                &mut descriptors
            ),
            Err(Errno::AGAIN)
        );
        let full = loop {
            if let Err(error) = send(one.as_fd(), &buffer) {
                break error;
            }
        };
        assert_eq!(full, Errno::AGAIN);
    }

    #[test]
    fn the_end_of_the_stream_is_no_bytes() {
        let (one, two) = pair();
        drop(one);
        assert_eq!(
            receive(
                two.as_fd(),
                &mut [0; 8],
                &mut control_room(),
                &mut VecDeque::new()
            ),
            Ok(0)
        );
        assert_eq!(send(two.as_fd(), b"x"), Err(Errno::PIPE));
    }

    #[test]
    fn too_many_descriptors_at_once_are_refused_and_closed() {
        let (one, two) = pair();
        let (kept, sent) = pair();
        let many: Vec<BorrowedFd<'_>> = vec![sent.as_fd(); MOST_DESCRIPTORS + 1];
        let mut space = vec![0; rustix::cmsg_space!(ScmRights(MOST_DESCRIPTORS + 1))];
        let mut control = SendAncillaryBuffer::new(&mut space);
        assert!(control.push(SendAncillaryMessage::ScmRights(&many)));
        let parts = [IoSlice::new(b"x")];
        sendmsg(&one, &parts, &mut control, SendFlags::empty()).unwrap();
        drop(sent);
        let mut descriptors = VecDeque::new();
        assert_eq!(
            receive(
                two.as_fd(),
                &mut [0; 8],
                &mut control_room(),
                &mut descriptors
            ),
            Err(Errno::PROTO)
        );
        assert!(descriptors.is_empty());
        // All copies of the other end are closed: so this end has come to its end.
        assert_eq!(
            receive(
                kept.as_fd(),
                &mut [0; 8],
                &mut control_room(),
                &mut descriptors
            ),
            Ok(0)
        );
    }
}
