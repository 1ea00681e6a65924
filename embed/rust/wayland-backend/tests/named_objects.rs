//! How much memory the pointers of objects take that are gone. The file has one test, since the memory is that of the process;
//! and glibc is asked for it.
#![cfg(target_env = "gnu")]

use std::io::{Read, Write};
use std::os::fd::OwnedFd;
use std::os::unix::net::UnixStream;
use std::sync::Arc;

use wayland_backend::protocol::{Argument, Interface, Message};
use wayland_backend::{client, message, server};

const OBJECTS: usize = 100_000;
const CONNECTIONS: usize = 2_000;
/// So many are there at once.
const AT_ONCE: usize = 1_000;
/// What may be kept in all. One pointer that stays for each object that is gone would be 100 times as much.
const MOST: usize = 64 * 1024;

static THING: Interface = Interface {
    name: "thing",
    version: 1,
    requests: &[],
    events: &[],
    c_ptr: None,
};

struct Quiet;

impl client::ObjectData for Quiet {
    fn event(
        self: Arc<Self>,
        _: &client::Backend,
        _: Message<client::ObjectId, OwnedFd>,
    ) -> Option<Arc<dyn client::ObjectData>> {
        None
    }

    fn destroyed(&self, _: client::ObjectId) {}
}

impl server::ObjectData<()> for Quiet {
    fn request(
        self: Arc<Self>,
        _: &server::Handle,
        (): &mut (),
        _: server::ClientId,
        _: Message<server::ObjectId, OwnedFd>,
    ) -> Option<Arc<dyn server::ObjectData<()>>> {
        None
    }

    fn destroyed(
        self: Arc<Self>,
        _: &server::Handle,
        (): &mut (),
        _: server::ClientId,
        _: server::ObjectId,
    ) {
    }
}

/// What the C library's `mallinfo2` answers, in bytes but for the counts.
#[repr(C)]
#[allow(dead_code)]
struct Mallinfo2 {
    arena: usize,
    free_blocks: usize,
    fast_blocks: usize,
    mapped_blocks: usize,
    mapped: usize,
    unused: usize,
    fast_free: usize,
    in_use: usize,
    free: usize,
    releasable: usize,
}

extern "C" {
    fn mallinfo2() -> Mallinfo2;
}

/// How many bytes of malloc the process has in use. Rust's memory is of malloc, too.
fn in_use() -> usize {
    // SAFETY: the call has no preconditions, and the struct is as <malloc.h> has it.
    let info = unsafe { mallinfo2() };
    info.in_use + info.mapped
}

/// How many bytes more are in use after this was done often than after it was done once.
fn growth(times: usize, mut step: impl FnMut()) -> usize {
    step();
    let before = in_use();
    (1..times).for_each(|_| step());
    in_use().saturating_sub(before)
}

/// A client makes callbacks, and the server ends them.
fn of_a_connection() -> usize {
    let (stream, mut peer) = UnixStream::pair().unwrap();
    let backend = client::Backend::connect(stream).unwrap();
    let (mut requests, mut events) = (vec![0; 12 * AT_ONCE], Vec::new());
    growth(OBJECTS / AT_ONCE, || {
        for _ in 0..AT_ONCE {
            let new = Argument::NewId(client::ObjectId::null());
            let sync = message!(backend.display_id(), 0, [new]);
            let made = backend.send_request(sync, Some(Arc::new(Quiet)), None);
            assert!(!made.unwrap().as_ptr().is_null());
        }
        backend.flush().unwrap();
        peer.read_exact(&mut requests).unwrap();
        events.clear();
        for request in requests.chunks(12) {
            let number = &request[8..];
            let head = |word: u32| word.to_ne_bytes();
            events.extend([number, &head(12 << 16), &head(0)].concat());
            events.extend([&head(1), &head(12 << 16 | 1), number].concat());
        }
        // A socket holds less than all of them.
        for part in events.chunks(24 * 100) {
            peer.write_all(part).unwrap();
            assert_eq!(backend.prepare_read().unwrap().read().unwrap(), 100);
        }
    })
}

/// A server makes objects for a client, and destroys them.
fn of_a_server() -> usize {
    let mut backend = server::Backend::<()>::new().unwrap();
    let mut handle = backend.handle();
    let (_peer, stream) = UnixStream::pair().unwrap();
    let client = handle.insert_client(stream, Arc::new(())).unwrap();
    growth(OBJECTS / AT_ONCE, || {
        let make = |_| {
            let made = handle.create_object::<()>(client.clone(), &THING, 1, Arc::new(Quiet));
            made.unwrap()
        };
        let things: Vec<_> = (0..AT_ONCE).map(make).collect();
        assert!(things.iter().all(|it| !it.as_ptr().is_null()));
        for thing in things {
            handle.destroy_object::<()>(&thing).unwrap();
        }
        let nothing = backend.dispatch_single_client(&mut (), client.clone());
        assert!(nothing.is_err());
    })
}

/// Connections that are closed while their objects are there.
fn of_connections() -> usize {
    growth(CONNECTIONS, || {
        let (stream, _peer) = UnixStream::pair().unwrap();
        let backend = client::Backend::connect(stream).unwrap();
        for _ in 0..10 {
            let new = Argument::NewId(client::ObjectId::null());
            let sync = message!(backend.display_id(), 0, [new]);
            let made = backend.send_request(sync, Some(Arc::new(Quiet)), None);
            assert!(!made.unwrap().as_ptr().is_null());
        }
    })
}

#[test]
fn objects_that_are_gone_take_no_memory() {
    for (name, growth) in [
        ("a connection's objects", of_a_connection()),
        ("a server's objects", of_a_server()),
        ("connections", of_connections()),
    ] {
        println!("{name}: {growth} bytes");
        assert!(growth <= MOST, "{name}: {growth} bytes");
    }
}
