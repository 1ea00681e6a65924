//! Descriptors, which are known by the sizes of their files.

use std::os::fd::{AsRawFd, OwnedFd};

use wayland_backend::client::WaylandError;
use wayland_backend::message;
use wayland_backend::protocol::Argument;

use crate::table::*;
use crate::told::Told;
use crate::world::*;
use crate::Case;

pub const CASES: &[Case] = &[
    ("descriptors", descriptors),
    ("descriptors_40_in_a_flush", many),
    ("descriptors_for_the_dead", for_the_dead),
    ("descriptors_closed_by_the_program", closed),
    ("descriptors_in_small_pieces", pieces),
];

fn give<Id>(file: &OwnedFd) -> Vec<Argument<Id, i32>> {
    vec![Argument::Fd(file.as_raw_fd())]
}

fn descriptors(told: &Told) {
    let mut world = World::new(told, Setup::default());
    let shape = world.shape.clone();
    let before = open_files();
    for size in 1..=3 {
        let sent = file(size);
        world.request(&shape, GIVE, give(&sent));
        world.event(world.bound(), GIVE, give(&sent));
    }
    world.turn();
    world.tell("more open files", open_files() - before);
}

fn many(told: &Told) {
    let mut world = World::new(told, Setup::default());
    let shape = world.shape.clone();
    let before = open_files();
    for size in 1..=40 {
        world.request(&shape, GIVE, give(&file(size)));
    }
    world.turn();
    for size in 1..=40 {
        world.event(world.bound(), GIVE, give(&file(size)));
    }
    world.serve();
    world.read();
    world.tell("more open files", open_files() - before);
}

fn for_the_dead(told: &Told) {
    let mut world = World::new(told, Setup::default());
    let shape = world.shape.clone();
    let child = world.request(
        &shape,
        MAKE,
        vec![Argument::NewId(wayland_backend::client::ObjectId::null())],
    );
    world.turn();
    let before = open_files();
    let handle = world.handle();
    let of_server = handle
        .object_for_protocol_id(world.id.clone(), &SHAPE, child.protocol_id())
        .unwrap();
    world.request(&child, END, vec![]);
    for size in 1..=5 {
        world.event(of_server.clone(), GIVE, give(&file(size)));
    }
    world.flush_server();
    world.read();
    world.tell("more open files", open_files() - before);
    // The next descriptor is the next message's.
    world.event(world.bound(), GIVE, give(&file(9)));
    world.flush_server();
    world.read();
    world.turn();
    world.tell("more open files", open_files() - before);
}

fn closed(told: &Told) {
    let mut world = World::new(told, Setup::default());
    let shape = world.shape.clone();
    let client = world.client();
    let give = message!(shape, GIVE, [Argument::Fd(9999)]);
    let answer = or_panic(|| {
        client
            .send_request(give, None, None)
            .map(|id| id.to_string())
    });
    world.say(format!("request: {answer}"));
    world.event(world.bound(), GIVE, vec![Argument::Fd(9999)]);
    world.turn();
}

/// Little room in the sockets: sends are cut, and each descriptor comes in its place.
fn pieces(told: &Told) {
    let mut world = World::new(
        told,
        Setup {
            is_narrow: true,
            ..Setup::default()
        },
    );
    let (shape, bound, client) = (world.shape.clone(), world.bound(), world.client());
    let handle = world.handle();
    let mut was_blocked = (false, false);
    for number in 1..=300 {
        let sent = file(number);
        let fd = sent.as_raw_fd();
        let long = "a".repeat(700);
        client
            .send_request(
                message!(shape.clone(), NUMBER, [Argument::Int(number as i32)]),
                None,
                None,
            )
            .unwrap();
        client
            .send_request(
                message!(shape.clone(), GIVE, [Argument::Fd(fd)]),
                None,
                None,
            )
            .unwrap();
        let null = Argument::Object(wayland_backend::client::ObjectId::null());
        client
            .send_request(
                message!(shape.clone(), WRITE, [text(&long), null]),
                None,
                None,
            )
            .unwrap();
        if number % 3 == 0 {
            while let Err(error) = client.flush() {
                let WaylandError::Io(error) = error else {
                    panic!("{error}")
                };
                assert_eq!(error.kind(), std::io::ErrorKind::WouldBlock);
                was_blocked.0 = true;
                world.server.dispatch_all_clients(&mut world.state).unwrap();
            }
        }
        handle
            .send_event(message!(
                bound.clone(),
                NUMBER,
                [Argument::Int(number as i32)]
            ))
            .unwrap();
        handle
            .send_event(message!(bound.clone(), GIVE, [Argument::Fd(fd)]))
            .unwrap();
        let null = Argument::Object(wayland_backend::server::ObjectId::null());
        handle
            .send_event(message!(bound.clone(), WRITE, [text(&long), null]))
            .unwrap();
        while world.server.flush(Some(world.id.clone())).is_err() {
            was_blocked.1 = true;
            let _ = client.prepare_read().unwrap().read();
        }
    }
    world.server.dispatch_all_clients(&mut world.state).unwrap();
    let _ = client.prepare_read().unwrap().read();
    // How the two sides alternate is up to the cuts: one after the other.
    let (of_server, of_client): (Vec<_>, Vec<_>) = told
        .take()
        .into_iter()
        .partition(|line| line.contains("request"));
    of_server
        .into_iter()
        .chain(of_client)
        .for_each(|line| told.say(line));
    world.tell("sends were cut", was_blocked);
    world.tell("few open files", open_files() < 20);
}
