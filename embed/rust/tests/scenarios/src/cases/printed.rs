//! Messages that a session keeps to itself. With WAYLAND_DEBUG they are printed: `tools/try-rust` compares what both print.

use std::io::Write;
use std::os::unix::net::UnixStream;
use std::sync::Arc;

use wayland_backend::client::{Backend, ObjectId};
use wayland_backend::message;
use wayland_backend::protocol::Argument;

use crate::table::*;
use crate::told::Told;
use crate::world::*;
use crate::Case;

pub const CASES: &[Case] = &[
    ("printed_error", error),
    ("printed_events_of_destroyed_objects", of_destroyed),
    ("printed_events_around_a_handled_one", around),
    ("printed_error_by_the_server", error_by_the_server),
];

/// A client whose registry is object 2, and whose shapes are 3 and 4.
fn session(told: &Told) -> (Backend, UnixStream, [ObjectId; 2]) {
    let (ours, theirs) = UnixStream::pair().unwrap();
    let client = Backend::connect(ours).unwrap();
    let new = || Argument::NewId(ObjectId::null());
    let get = message!(client.display_id(), 1, [new()]);
    let data = Arc::new(ClientObject::new(told, "registry"));
    let registry = client.send_request(get, Some(data), None).unwrap();
    let shapes = ["first", "second"].map(|name| {
        let bind = message!(
            registry.clone(),
            0,
            [Argument::Uint(1), text("shape"), Argument::Uint(2), new()]
        );
        let data = Arc::new(ClientObject::new(told, name));
        client
            .send_request(bind, Some(data), Some((&SHAPE, 2)))
            .unwrap()
    });
    client.flush().unwrap();
    (client, theirs, shapes)
}

fn send(socket: &mut UnixStream, words: &[u32]) {
    let bytes: Vec<u8> = words.iter().flat_map(|word| word.to_ne_bytes()).collect();
    socket.write_all(&bytes).unwrap();
}

fn read(told: &Told, client: &Backend) {
    let guard = client.prepare_read().unwrap();
    told.say(format!("read {}", crate::told::client(guard.read())));
}

fn error(told: &Told) {
    let (client, mut server, _) = session(told);
    // An event that is handed out, an error, and an event that is never read.
    send(&mut server, &[3, 12 << 16, 7]);
    send(
        &mut server,
        &[1, 24 << 16, 4, 3, 3, u32::from_ne_bytes(*b"no\0\0")],
    );
    send(&mut server, &[3, 12 << 16, 8]);
    read(told, &client);
    read(told, &client);
}

fn of_destroyed(told: &Told) {
    let (client, mut server, [first, second]) = session(told);
    client
        .send_request(message!(second, END, []), None, None)
        .unwrap();
    let made = 0xff00_0000;
    let abc = u32::from_ne_bytes(*b"abc\0");
    send(&mut server, &[4, 12 << 16, 5]);
    send(&mut server, &[4, 20 << 16 | 1, 4, abc, 3]);
    send(&mut server, &[4, 16 << 16 | 1, 0, 0]);
    send(&mut server, &[4, 12 << 16 | 2, made]);
    // An event of the object that one of a destroyed object has made.
    send(&mut server, &[made, 12 << 16, 6]);
    read(told, &client);
    // The number is free, and used again.
    send(&mut server, &[1, 12 << 16 | 1, 4]);
    read(told, &client);
    let make = message!(first, MAKE, [Argument::NewId(ObjectId::null())]);
    let data = Arc::new(ClientObject::new(told, "third"));
    let third = client.send_request(make, Some(data), None).unwrap();
    told.say(format!("made {third}"));
    send(&mut server, &[4, 12 << 16, 9]);
    read(told, &client);
}

/// What is kept back comes before and behind what is handed out, and some of it in two parts.
fn around(told: &Told) {
    let (client, mut server, [_, second]) = session(told);
    client
        .send_request(message!(second, END, []), None, None)
        .unwrap();
    send(&mut server, &[4, 12 << 16, 1, 3, 12 << 16, 2, 4, 12 << 16]);
    read(told, &client);
    send(
        &mut server,
        &[3, 4, 8 << 16 | 3, 3, 12 << 16, 4, 1, 12 << 16 | 1, 4],
    );
    read(told, &client);
}

/// The error of a server's own client.
fn error_by_the_server(told: &Told) {
    let mut world = World::new(told, Setup::default());
    let bound = world.bound();
    let handle = world.server.handle();
    handle.post_error(bound, 7, c"no".into());
    world.turn();
}
