//! How much memory a client's connection takes. The file has one test, since the memory is that of the process; and glibc is
//! asked for it.
#![cfg(target_env = "gnu")]

use std::io::{Read, Write};
use std::os::fd::OwnedFd;
use std::os::unix::net::UnixStream;
use std::sync::atomic::{AtomicUsize, Ordering};
use std::sync::Arc;

use wayland_backend::client::{Backend, ObjectData, ObjectId};
use wayland_backend::message;
use wayland_backend::protocol::{Argument, Message};

const SYNC: u16 = 0;
const GET_REGISTRY: u16 = 1;

const CONNECTIONS: usize = 200;
const GLOBALS: usize = 20;
const MOST: usize = 16 * 1024;

/// Counts the events of its objects.
#[derive(Default)]
struct Count(AtomicUsize);

impl ObjectData for Count {
    fn event(
        self: Arc<Self>,
        _: &Backend,
        _: Message<ObjectId, OwnedFd>,
    ) -> Option<Arc<dyn ObjectData>> {
        self.0.fetch_add(1, Ordering::Relaxed);
        None
    }

    fn destroyed(&self, _: ObjectId) {}
}

/// What the C library's `mallinfo2` answers, in bytes but for the counts.
#[repr(C)]
#[allow(dead_code)]
struct Mallinfo2 {
    arena: usize,
    free_blocks: usize,
    fast_blocks: usize,
    mapped_blocks: usize,
    mapped: usize,
    unused: usize,
    fast_free: usize,
    in_use: usize,
    free: usize,
    releasable: usize,
}

extern "C" {
    fn mallinfo2() -> Mallinfo2;
}

/// How many bytes of malloc the process has in use. Rust's memory is of malloc, too.
fn in_use() -> usize {
    // SAFETY: the call has no preconditions, and the struct is as <malloc.h> has it.
    let info = unsafe { mallinfo2() };
    info.in_use + info.mapped
}

fn words(words: &[u32]) -> Vec<u8> {
    words.iter().flat_map(|word| word.to_ne_bytes()).collect()
}

/// A connection that has done a sync, and knows the globals; and the other end of its socket.
fn connection(count: &Arc<Count>) -> (Backend, UnixStream) {
    let (ours, mut server) = UnixStream::pair().unwrap();
    let client = Backend::connect(ours).unwrap();
    for opcode in [GET_REGISTRY, SYNC] {
        let new = Argument::NewId(ObjectId::null());
        let request = message!(client.display_id(), opcode, [new]);
        client
            .send_request(request, Some(count.clone()), None)
            .unwrap();
    }
    client.flush().unwrap();
    server.read_exact(&mut [0; 24]).unwrap();
    // The registry is object 2, and the callback is object 3.
    for name in 0..GLOBALS as u32 {
        let global = [words(&[2, 32 << 16, name, 12]), b"an_interfac\0".to_vec()].concat();
        server.write_all(&[global, words(&[1])].concat()).unwrap();
    }
    server.write_all(&words(&[3, 12 << 16, 0])).unwrap();
    server.write_all(&words(&[1, 12 << 16 | 1, 3])).unwrap();
    client.prepare_read().unwrap().read().unwrap();
    (client, server)
}

#[test]
fn a_connection_takes_at_most_sixteen_kilobytes() {
    let count = Arc::new(Count::default());
    // What the thread keeps for all of its connections is there with the first one.
    let mut connections = vec![connection(&count)];
    let before = in_use();
    connections.extend((0..CONNECTIONS).map(|_| connection(&count)));
    let each = (in_use() - before) / CONNECTIONS;
    let events = count.0.load(Ordering::Relaxed);
    assert_eq!(events, (CONNECTIONS + 1) * (GLOBALS + 1));
    assert!(each <= MOST, "{each} bytes");
    println!("{each} bytes");
}
