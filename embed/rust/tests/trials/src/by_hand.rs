//! A client that writes its bytes by hand.

use std::io::IoSlice;
use std::os::fd::AsFd;
use std::os::unix::net::UnixStream;

use rustix::net::{sendmsg, SendAncillaryBuffer, SendAncillaryMessage, SendFlags};

use crate::process::file;

pub fn words(all: &[u32]) -> Vec<u8> {
    all.iter().flat_map(|it| it.to_ne_bytes()).collect()
}

pub fn message(object: u32, opcode: u16, arguments: &[u8]) -> Vec<u8> {
    let size = 8 + arguments.len() as u32;
    [words(&[object, size << 16 | u32::from(opcode)]), arguments.to_vec()].concat()
}

pub fn bind(registry: u32, name: u32, interface: &str, version: u32, id: u32) -> Vec<u8> {
    let mut arguments = words(&[name, interface.len() as u32 + 1]);
    arguments.extend(interface.bytes());
    arguments.resize(arguments.len() / 4 * 4 + 4, 0);
    arguments.extend(words(&[version, id]));
    message(registry, 0, &arguments)
}

/// Sends bytes with this many descriptors. That it may fail, since the server has ended the connection, is no matter.
pub fn send(socket: &UnixStream, bytes: &[u8], descriptors: usize) {
    let sent = file("sent");
    let all = vec![sent.as_fd(); descriptors];
    let mut room = [0; rustix::cmsg_space!(ScmRights(28))];
    let mut control = SendAncillaryBuffer::new(&mut room);
    if descriptors > 0 {
        control.push(SendAncillaryMessage::ScmRights(&all));
    }
    let _ = sendmsg(socket, &[IoSlice::new(bytes)], &mut control, SendFlags::NOSIGNAL);
}

/// Numbers that look random, and are the same in each run.
pub struct Random(u64);

impl Random {
    pub fn new(seed: u64) -> Self {
        Self(seed.wrapping_mul(0x9e37_79b9_7f4a_7c15) | 1)
    }

    pub fn below(&mut self, limit: u64) -> u64 {
        self.0 =
            self.0.wrapping_mul(6_364_136_223_846_793_005).wrapping_add(1_442_695_040_888_963_407);
        (self.0 >> 33) % limit
    }
}
