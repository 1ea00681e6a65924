//! Long messages, and peers that do not read.

use std::io::ErrorKind;

use wayland_backend::client::WaylandError;
use wayland_backend::protocol::Argument;
use wayland_backend::{client, message, server};

use crate::table::*;
use crate::told::Told;
use crate::world::*;
use crate::Case;

/// Bytes of a string; a message has 16 more, the end of the string and up to 3 to fill a word.
const LENGTHS: [usize; 8] = [1000, 4000, 4075, 4076, 4090, 9000, 60_000, 65_500];

pub const CASES: &[Case] = &[
    ("long_requests", long_requests),
    ("long_events", long_events),
    ("request_too_long", request_too_long),
    ("event_too_long", event_too_long),
    ("client_does_not_read", client_does_not_read),
    ("server_does_not_read", server_does_not_read),
];

fn long_requests(told: &Told) {
    let mut world = World::new(told, Setup::default());
    let shape = world.shape.clone();
    for length in LENGTHS {
        world.request(
            &shape,
            WRITE,
            vec![
                text(&"a".repeat(length)),
                Argument::Object(client::ObjectId::null()),
            ],
        );
        world.turn();
    }
}

fn long_events(told: &Told) {
    let mut world = World::new(told, Setup::default());
    for length in LENGTHS {
        world.event(
            world.bound(),
            WRITE,
            vec![
                text(&"a".repeat(length)),
                Argument::Object(server::ObjectId::null()),
            ],
        );
        world.turn();
    }
}

fn request_too_long(told: &Told) {
    let mut world = World::new(told, Setup::default());
    let shape = world.shape.clone();
    world.request(
        &shape,
        WRITE,
        vec![
            text(&"a".repeat(70_000)),
            Argument::Object(client::ObjectId::null()),
        ],
    );
    world.request(&shape, NUMBER, vec![Argument::Int(1)]);
    world.turn();
}

fn event_too_long(told: &Told) {
    let mut world = World::new(told, Setup::default());
    world.event(
        world.bound(),
        WRITE,
        vec![
            text(&"a".repeat(70_000)),
            Argument::Object(server::ObjectId::null()),
        ],
    );
    world.event(world.bound(), NUMBER, vec![Argument::Int(1)]);
    world.turn();
}

fn client_does_not_read(told: &Told) {
    let mut world = World::new(told, Setup::default());
    let (handle, bound) = (world.handle(), world.bound());
    for number in 0..200_000 {
        if handle
            .send_event(message!(bound.clone(), NUMBER, [Argument::Int(number)]))
            .is_err()
        {
            break;
        }
        if number % 1000 == 0 {
            let _ = world.server.flush(None);
        }
    }
    world.tell(
        "is killed",
        handle.get_client_data(world.id.clone()).is_err(),
    );
    world.dispatch();
}

fn server_does_not_read(told: &Told) {
    let world = World::new(told, Setup::default());
    let (client, shape) = (world.client(), world.shape.clone());
    let mut failed = None;
    for number in 0..200_000 {
        let sent = client.send_request(
            message!(shape.clone(), NUMBER, [Argument::Int(number)]),
            None,
            None,
        );
        let flushed = if number % 1000 == 0 {
            client.flush()
        } else {
            Ok(())
        };
        let error = match (client.last_error(), flushed) {
            (Some(error), _) => error,
            (None, Err(WaylandError::Io(error))) if error.kind() != ErrorKind::WouldBlock => {
                WaylandError::Io(error)
            }
            _ => continue,
        };
        failed = Some((sent.is_ok(), crate::told::client(Err::<(), _>(error))));
        break;
    }
    world.tell("failed", failed);
}
