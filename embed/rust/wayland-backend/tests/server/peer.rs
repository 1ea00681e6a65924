//! A client that is no session: it writes and reads bytes, and decides by itself what they mean.

use std::io::{ErrorKind, IoSlice, IoSliceMut};
use std::os::fd::{AsFd, BorrowedFd, OwnedFd};
use std::os::unix::net::UnixStream;

use rustix::net::{
    recvmsg, sendmsg, RecvAncillaryBuffer, RecvAncillaryMessage, RecvFlags, SendAncillaryBuffer,
    SendAncillaryMessage, SendFlags,
};

/// An argument of a message.
pub enum Arg<'a> {
    /// An int, a uint, a fixed, an object or a new id.
    Word(u32),
    Text(&'a str),
    Null,
    Bytes(&'a [u8]),
}

/// A message that came. It has its arguments as bytes.
#[derive(Debug, PartialEq, Eq)]
pub struct Event {
    pub object: u32,
    pub opcode: u16,
    pub body: Vec<u8>,
}

impl Event {
    /// The argument that begins at this byte, if it is a number.
    pub fn word(&self, at: usize) -> u32 {
        u32::from_ne_bytes(self.body[at..at + 4].try_into().unwrap())
    }

    /// The string that begins at this byte.
    pub fn text(&self, at: usize) -> String {
        let length = self.word(at) as usize;
        String::from_utf8(self.body[at + 4..at + 4 + length - 1].to_vec()).unwrap()
    }
}

/// The bytes of a message.
pub fn message(object: u32, opcode: u16, args: &[Arg<'_>]) -> Vec<u8> {
    let mut body = Vec::new();
    for arg in args {
        match arg {
            Arg::Word(word) => body.extend(word.to_ne_bytes()),
            Arg::Null => body.extend(0u32.to_ne_bytes()),
            Arg::Text(text) => run(&mut body, &[text.as_bytes(), &[0]].concat()),
            Arg::Bytes(bytes) => run(&mut body, bytes),
        }
    }
    let length = body.len() as u32 + 8;
    let header = [object, length << 16 | u32::from(opcode)];
    [header.map(u32::to_ne_bytes).concat(), body].concat()
}

/// A length, and so many bytes, filled up to a multiple of four.
fn run(body: &mut Vec<u8>, bytes: &[u8]) {
    body.extend((bytes.len() as u32).to_ne_bytes());
    body.extend(bytes);
    body.resize(body.len().next_multiple_of(4), 0);
}

pub struct Peer {
    pub stream: UnixStream,
    received: Vec<u8>,
    pub descriptors: Vec<OwnedFd>,
    /// Whether the server has closed the connection.
    pub has_ended: bool,
}

impl Peer {
    /// A client, and the server's end of its connection.
    pub fn new() -> (Peer, UnixStream) {
        let (stream, other) = UnixStream::pair().unwrap();
        let peer = Peer {
            stream,
            received: Vec::new(),
            descriptors: Vec::new(),
            has_ended: false,
        };
        (peer, other)
    }

    pub fn send(&self, object: u32, opcode: u16, args: &[Arg<'_>]) {
        self.send_bytes(&message(object, opcode, args), &[]);
    }

    pub fn send_bytes(&self, bytes: &[u8], descriptors: &[BorrowedFd<'_>]) {
        let mut space = [0; rustix::cmsg_space!(ScmRights(253))];
        let mut control = SendAncillaryBuffer::new(&mut space);
        if !descriptors.is_empty() {
            assert!(control.push(SendAncillaryMessage::ScmRights(descriptors)));
        }
        let parts = &[IoSlice::new(bytes)];
        let sent = sendmsg(&self.stream, parts, &mut control, SendFlags::NOSIGNAL).unwrap();
        assert_eq!(sent, bytes.len());
    }

    /// Takes the messages that have come.
    pub fn events(&mut self) -> Vec<Event> {
        self.receive();
        let mut events = Vec::new();
        while self.received.len() >= 8 {
            let word =
                |at: usize| u32::from_ne_bytes(self.received[at..at + 4].try_into().unwrap());
            let (object, length) = (word(0), (word(4) >> 16) as usize);
            let opcode = word(4) as u16;
            if self.received.len() < length {
                break;
            }
            let body = self.received[8..length].to_vec();
            self.received.drain(..length);
            events.push(Event {
                object,
                opcode,
                body,
            });
        }
        events
    }

    fn receive(&mut self) {
        let mut buffer = [0; 4096];
        loop {
            let mut space = [0; rustix::cmsg_space!(ScmRights(253))];
            let mut control = RecvAncillaryBuffer::new(&mut space);
            let flags = RecvFlags::DONTWAIT | RecvFlags::CMSG_CLOEXEC;
            let parts = &mut [IoSliceMut::new(&mut buffer)];
            match recvmsg(self.stream.as_fd(), parts, &mut control, flags) {
                Ok(came) => {
                    for part in control.drain() {
                        if let RecvAncillaryMessage::ScmRights(rights) = part {
                            self.descriptors.extend(rights);
                        }
                    }
                    self.received.extend(&buffer[..came.bytes]);
                    if came.bytes == 0 {
                        self.has_ended = true;
                        return;
                    }
                }
                Err(error) if error.kind() == ErrorKind::WouldBlock => return,
                Err(_) => {
                    self.has_ended = true;
                    return;
                }
            }
        }
    }
}
