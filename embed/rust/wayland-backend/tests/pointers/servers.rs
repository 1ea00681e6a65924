//! The server's side.

use std::collections::HashSet;
use std::io::ErrorKind;
use std::os::fd::OwnedFd;
use std::os::unix::net::UnixStream;
use std::ptr;
use std::sync::Arc;

use wayland_backend::protocol::{Interface, Message};
use wayland_backend::server::{
    Backend, ClientId, DisconnectReason, Handle, InvalidId, ObjectData, ObjectId,
};
use wayland_backend::sys;

use crate::{OTHER, THING};

struct Data;

impl ObjectData<()> for Data {
    fn request(
        self: Arc<Self>,
        _: &Handle,
        _: &mut (),
        _: ClientId,
        request: Message<ObjectId, OwnedFd>,
    ) -> Option<Arc<dyn ObjectData<()>>> {
        panic!("no client asks: {request:?}")
    }

    fn destroyed(self: Arc<Self>, _: &Handle, (): &mut (), _: ClientId, object: ObjectId) {
        assert!(object.as_ptr().is_null());
    }
}

/// A server with two clients, which ask for nothing.
pub struct Server {
    backend: Backend<()>,
    pub handle: Handle,
    clients: Vec<(ClientId, UnixStream)>,
}

impl Server {
    pub fn new() -> Server {
        let backend = Backend::new().unwrap();
        let mut handle = backend.handle();
        let clients = [(); 2].map(|()| {
            let (client, server) = UnixStream::pair().unwrap();
            (handle.insert_client(server, Arc::new(())).unwrap(), client)
        });
        Server {
            backend,
            handle,
            clients: clients.into(),
        }
    }

    /// A new object of one of the clients.
    pub fn thing(&self, client: usize) -> ObjectId {
        let client = self.clients[client].0.clone();
        let made = self.handle.create_object(client, &THING, 1, Arc::new(Data));
        made.unwrap()
    }
}

/// The object that a pointer names.
fn found(
    interface: &'static Interface,
    pointer: *mut wayland_sys::server::wl_resource,
) -> Result<ObjectId, InvalidId> {
    // SAFETY: nothing is asked for.
    unsafe { ObjectId::from_ptr(interface, pointer) }
}

#[test]
fn each_object_of_each_client_has_a_pointer_of_its_own() {
    let servers = [Server::new(), Server::new()];
    let mut pointers = HashSet::new();
    for server in &servers {
        assert!(pointers.insert(server.handle.display_ptr() as usize));
        assert_eq!(
            server.backend.handle().display_ptr(),
            server.handle.display_ptr()
        );
        for id in [server.thing(0), server.thing(0), server.thing(1)] {
            let pointer = id.as_ptr();
            assert!(!pointer.is_null() && pointers.insert(pointer as usize));
            assert_eq!(id.clone().as_ptr(), pointer);
            assert_eq!(found(&THING, pointer), Ok(id));
        }
    }
    assert_eq!(pointers.len(), 8);
    assert!(ObjectId::null().as_ptr().is_null());
    // The module of that name has the same types.
    let _: sys::server::ObjectId = servers[0].thing(0);
}

#[test]
fn objects_of_two_servers_differ() {
    let servers = [Server::new(), Server::new()];
    let things = [servers[0].thing(0), servers[1].thing(0)];
    assert_eq!(things[0].protocol_id(), things[1].protocol_id());
    assert_ne!(things[0], things[1]);
}

#[test]
fn a_pointer_that_names_no_object_is_refused() {
    let server = Server::new();
    let pointer = server.thing(0).as_ptr();
    assert_eq!(found(&OTHER, pointer), Err(InvalidId));
    assert_eq!(found(&THING, ptr::null_mut()), Err(InvalidId));
    assert_eq!(found(&THING, pointer.wrapping_byte_add(1)), Err(InvalidId));
    let display = server.handle.display_ptr().cast();
    assert_eq!(found(&THING, display), Err(InvalidId));
    let mut memory = 0_u64;
    let elsewhere = ptr::from_mut(&mut memory).cast();
    assert_eq!(found(&THING, elsewhere), Err(InvalidId));
}

#[test]
fn an_object_that_is_gone_has_no_pointer() {
    let mut server = Server::new();
    let things = [server.thing(0), server.thing(1), server.thing(1)];
    let pointers = things.each_ref().map(ObjectId::as_ptr);
    server.handle.destroy_object::<()>(&things[0]).unwrap();
    assert_eq!(found(&THING, pointers[0]), Err(InvalidId));
    assert!(things[0].as_ptr().is_null());
    // With its client.
    let client = server.clients[1].0.clone();
    let why = DisconnectReason::ConnectionClosed;
    server.handle.kill_client(client, why);
    // A dispatch takes it out, also one that finds nothing to read.
    let other = server.clients[0].0.clone();
    let read = server.backend.dispatch_single_client(&mut (), other);
    assert_eq!(read.unwrap_err().kind(), ErrorKind::WouldBlock);
    assert_eq!(found(&THING, pointers[1]), Err(InvalidId));
    assert!(things[1].as_ptr().is_null());
    // With its server.
    let last = server.thing(0);
    let pointer = last.as_ptr();
    assert_eq!(found(&THING, pointer), Ok(last.clone()));
    drop(server);
    assert_eq!(found(&THING, pointer), Err(InvalidId));
    assert!(last.as_ptr().is_null());
}
