//! The client's side.

use std::collections::HashSet;
use std::io::Write;
use std::os::fd::OwnedFd;
use std::os::unix::net::UnixStream;
use std::ptr;
use std::sync::{Arc, Barrier, Mutex};
use std::thread;

use wayland_backend::client::{Backend, InvalidId, ObjectData, ObjectId};
use wayland_backend::message;
use wayland_backend::protocol::{Argument, Interface, Message};
use wayland_backend::sys;

use crate::{panic_of, words, DESTROY, OTHER, THING};

const SYNC: u16 = 0;
const GET_REGISTRY: u16 = 1;
const BIND: u16 = 0;

/// Keeps the numbers that its objects are told.
#[derive(Default)]
struct Told(Mutex<Vec<u32>>);

impl ObjectData for Told {
    fn event(
        self: Arc<Self>,
        _: &Backend,
        event: Message<ObjectId, OwnedFd>,
    ) -> Option<Arc<dyn ObjectData>> {
        match event.args[..] {
            [Argument::Uint(number)] => self.0.lock().unwrap().push(number),
            _ => panic!("no such event: {event:?}"),
        }
        None
    }

    fn destroyed(&self, object: ObjectId) {
        assert!(object.as_ptr().is_null());
    }
}

/// A connection with a registry and things that it has bound.
pub struct Client {
    pub backend: Backend,
    registry: ObjectId,
    server: UnixStream,
}

impl Client {
    pub fn new() -> Client {
        let (client, server) = UnixStream::pair().unwrap();
        let backend = Backend::connect(client).unwrap();
        let registry = make(&backend, backend.display_id(), GET_REGISTRY);
        Client {
            backend,
            registry,
            server,
        }
    }

    pub fn thing(&self) -> ObjectId {
        self.thing_of(Arc::new(Told::default()))
    }

    fn thing_of(&self, data: Arc<Told>) -> ObjectId {
        let bind = message!(
            self.registry.clone(),
            BIND,
            [
                Argument::Uint(1),
                Argument::Str(Some(Box::new(c"thing".into()))),
                Argument::Uint(1),
                Argument::NewId(ObjectId::null()),
            ]
        );
        let made = self
            .backend
            .send_request(bind, Some(data), Some((&THING, 1)));
        made.unwrap()
    }

    fn destroy(&self, thing: &ObjectId) {
        let request = message!(thing.clone(), DESTROY, []);
        self.backend.send_request(request, None, None).unwrap();
    }

    /// The server sends this, and it is read.
    fn read(&mut self, bytes: &[u8]) {
        self.server.write_all(bytes).unwrap();
        let events = self.backend.prepare_read().unwrap().read();
        assert!(events.is_ok(), "{events:?}");
    }

    /// The server says that the number of an object is free.
    fn free(&mut self, number: u32) {
        self.server
            .write_all(&words(&[1, 12 << 16 | 1, number]))
            .unwrap();
        // It is no event that a program is handed.
        let _ = self.backend.prepare_read().unwrap().read();
    }
}

/// A request that makes an object.
fn make(backend: &Backend, sender: ObjectId, opcode: u16) -> ObjectId {
    let request = message!(sender, opcode, [Argument::NewId(ObjectId::null())]);
    backend
        .send_request(request, Some(Arc::new(Told::default())), None)
        .unwrap()
}

/// The object that a pointer names.
fn found(
    interface: &'static Interface,
    pointer: *mut wayland_sys::client::wl_proxy,
) -> Result<ObjectId, InvalidId> {
    // SAFETY: nothing is asked for.
    unsafe { ObjectId::from_ptr(interface, pointer) }
}

fn foreign(display: *mut wayland_sys::client::wl_display) -> Backend {
    // SAFETY: nothing is asked for.
    unsafe { Backend::from_foreign_display(display) }
}

fn manage(
    client: &Client,
    interface: &'static Interface,
    pointer: *mut wayland_sys::client::wl_proxy,
    data: Arc<Told>,
) -> ObjectId {
    // SAFETY: nothing is asked for.
    unsafe { client.backend.manage_object(interface, pointer, data) }
}

#[test]
fn each_object_of_each_connection_has_a_pointer_of_its_own() {
    let clients = [Client::new(), Client::new()];
    let mut pointers = HashSet::new();
    for client in &clients {
        let things = [client.thing(), client.thing()];
        let callback = make(&client.backend, client.backend.display_id(), SYNC);
        let display = client.backend.display_id();
        for id in [
            &display,
            &client.registry,
            &things[0],
            &things[1],
            &callback,
        ] {
            let pointer = id.as_ptr();
            assert!(!pointer.is_null() && pointers.insert(pointer));
            assert_eq!(id.clone().as_ptr(), pointer);
        }
        assert_eq!(client.backend.display_ptr().cast(), display.as_ptr());
        assert_eq!(
            client.backend.clone().display_ptr().cast(),
            display.as_ptr()
        );
    }
    assert_eq!(pointers.len(), 10);
    // Objects that were made in the same order have the same numbers.
    assert_eq!(
        clients[0].registry.protocol_id(),
        clients[1].registry.protocol_id()
    );
    assert_ne!(clients[0].registry, clients[1].registry);
    assert!(ObjectId::null().as_ptr().is_null());
}

#[test]
fn a_pointer_gives_the_object_back() {
    let client = Client::new();
    let thing = client.thing();
    for id in [client.backend.display_id(), client.registry.clone(), thing] {
        assert_eq!(found(id.interface(), id.as_ptr()), Ok(id.clone()));
    }
    let thing = found(&THING, client.thing().as_ptr()).unwrap();
    assert!(client.backend.info(thing.clone()).is_ok());
    client.destroy(&thing);
    // The module of that name has the same types.
    let _: sys::client::ObjectId = thing;
}

#[test]
fn a_pointer_that_names_no_object_is_refused() {
    let client = Client::new();
    let pointer = client.thing().as_ptr();
    assert_eq!(found(&OTHER, pointer), Err(InvalidId));
    assert_eq!(found(&THING, ptr::null_mut()), Err(InvalidId));
    assert_eq!(found(&THING, client.registry.as_ptr()), Err(InvalidId));
    assert_eq!(found(&THING, pointer.wrapping_byte_add(1)), Err(InvalidId));
    assert_eq!(found(&THING, pointer.wrapping_byte_sub(1)), Err(InvalidId));
    let mut memory = 0_u64;
    let elsewhere = ptr::from_mut(&mut memory).cast();
    assert_eq!(found(&THING, elsewhere), Err(InvalidId));
}

#[test]
fn a_destroyed_object_has_no_pointer() {
    let mut client = Client::new();
    let (one, other) = (client.thing(), client.thing());
    let callback = make(&client.backend, client.backend.display_id(), SYNC);
    let pointers = [one.as_ptr(), other.as_ptr()];
    let of_callback = callback.as_ptr();
    // By a request, by the program, and by an event.
    client.destroy(&one);
    client.backend.destroy_object(&other).unwrap();
    client.read(&words(&[callback.protocol_id(), 12 << 16, 0]));
    assert_eq!(found(callback.interface(), of_callback), Err(InvalidId));
    for (id, pointer) in [&one, &other].into_iter().zip(pointers) {
        assert!(id.as_ptr().is_null());
        assert_eq!(found(&THING, pointer), Err(InvalidId));
    }
    // Its number is used again, and its pointer is not.
    client.free(one.protocol_id());
    let next = client.thing();
    assert_eq!(next.protocol_id(), one.protocol_id());
    assert!(!pointers.contains(&next.as_ptr()));
    assert_eq!(found(&THING, next.as_ptr()), Ok(next));
    assert_eq!(found(&THING, pointers[0]), Err(InvalidId));
    assert!(one.as_ptr().is_null());
}

#[test]
fn the_objects_of_a_closed_connection_have_no_pointers() {
    let client = Client::new();
    let (thing, display) = (client.thing(), client.backend.display_id());
    let pointers = [thing.as_ptr(), display.as_ptr()];
    drop(client);
    for (id, pointer) in [&thing, &display].into_iter().zip(pointers) {
        assert!(id.as_ptr().is_null());
        assert_eq!(found(id.interface(), pointer), Err(InvalidId));
    }
}

#[test]
fn the_pointer_of_a_display_gives_the_connection_back() {
    let (client, other) = (Client::new(), Client::new());
    let guest = foreign(client.backend.display_ptr());
    assert!(guest == client.backend && guest != other.backend);
    // A guest keeps it open.
    let (thing, pointer) = (client.thing(), client.backend.display_ptr());
    drop(client);
    assert!(guest.info(thing).is_ok());
    assert!(foreign(pointer) == guest);
    drop(guest);
    assert!(panic_of(|| foreign(pointer)).contains("names no connection"));
}

#[test]
fn a_guest_is_told_what_another_thread_has_read() {
    let mut client = Client::new();
    let thing = client.thing();
    let guest = foreign(client.backend.display_ptr());
    client.read(&words(&[thing.protocol_id(), 12 << 16, 7]));
    let looks = thread::spawn(move || {
        // The event may be one of its own, and poll does not tell of it any more.
        assert!(guest.prepare_read().is_none());
        guest.dispatch_inner_queue().unwrap();
        assert!(guest.prepare_read().is_some());
    });
    looks.join().unwrap();
}

#[test]
fn a_pointer_that_names_no_display_is_refused() {
    let client = Client::new();
    let object = client.thing().as_ptr().cast();
    let mut memory = 0_u64;
    for pointer in [ptr::null_mut(), object, ptr::from_mut(&mut memory).cast()] {
        assert!(panic_of(|| foreign(pointer)).contains("names no connection"));
    }
}

#[test]
fn an_object_of_another_connection_is_refused() {
    let (client, other) = (Client::new(), Client::new());
    let (own, foreign) = (client.thing(), other.thing());
    assert_eq!(own.protocol_id(), foreign.protocol_id());
    let data = Arc::new(Told::default());
    let refused = panic_of(|| manage(&client, &THING, foreign.as_ptr(), data.clone()));
    assert!(refused.contains("names no thing of this connection"));
    let backend = &client.backend;
    assert!(backend.info(foreign.clone()).is_err());
    assert!(backend.get_data(foreign.clone()).is_err());
    assert!(backend.set_data(foreign.clone(), data).is_err());
    assert!(backend.destroy_object(&foreign).is_err());
    let request = message!(foreign.clone(), DESTROY, []);
    assert!(backend.send_request(request, None, None).is_err());
    // Neither has noticed.
    assert!(backend.info(own).is_ok() && other.backend.info(foreign).is_ok());
}

#[test]
fn an_object_is_managed_by_other_data() {
    let mut client = Client::new();
    let (first, second) = (Arc::new(Told::default()), Arc::new(Told::default()));
    let thing = client.thing_of(first.clone());
    let number = thing.protocol_id();
    client.read(&words(&[number, 12 << 16, 7]));
    assert_eq!(
        manage(&client, &THING, thing.as_ptr(), second.clone()),
        thing
    );
    client.read(&words(&[number, 12 << 16, 8]));
    assert_eq!(*first.0.lock().unwrap(), [7]);
    assert_eq!(*second.0.lock().unwrap(), [8]);
    let pointer = thing.as_ptr();
    assert!(panic_of(|| manage(&client, &OTHER, pointer, first.clone())).contains("no other of"));
    client.destroy(&thing);
    assert!(panic_of(|| manage(&client, &THING, pointer, first.clone())).contains("no thing of"));
}

#[test]
fn threads_get_the_same_pointer() {
    const THREADS: usize = 8;
    let client = Client::new();
    let things: Vec<_> = (0..200).map(|_| client.thing()).collect();
    let begin = Barrier::new(THREADS);
    let of_threads: Vec<Vec<usize>> = thread::scope(|scope| {
        let all = || {
            begin.wait();
            things.iter().map(|it| it.as_ptr() as usize).collect()
        };
        let threads: Vec<_> = (0..THREADS).map(|_| scope.spawn(all)).collect();
        threads.into_iter().map(|it| it.join().unwrap()).collect()
    });
    assert_eq!(of_threads[0].iter().collect::<HashSet<_>>().len(), 200);
    assert!(of_threads.iter().all(|it| *it == of_threads[0]));
}

#[test]
fn connections_come_and_go_in_threads() {
    thread::scope(|scope| {
        for _ in 0..8 {
            scope.spawn(|| {
                for _ in 0..200 {
                    let client = Client::new();
                    let thing = client.thing();
                    assert!(foreign(client.backend.display_ptr()) == client.backend);
                    assert_eq!(found(&THING, thing.as_ptr()), Ok(thing));
                }
            });
        }
    });
}

#[cfg(feature = "rwh_06")]
#[test]
fn a_connection_has_no_handle_for_libraries_of_c() {
    use rwh_06::{HandleError, HasDisplayHandle};
    let client = Client::new();
    let handle = client.backend.display_handle();
    assert!(matches!(handle, Err(HandleError::NotSupported)));
}
