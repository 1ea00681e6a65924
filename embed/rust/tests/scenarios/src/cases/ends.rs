//! Ends of connections, errors, and callbacks that panic.

use std::sync::Arc;

use wayland_backend::protocol::Argument;
use wayland_backend::{client, message, server};

use crate::table::*;
use crate::told::Told;
use crate::world::*;
use crate::Case;

pub const CASES: &[Case] = &[
    ("client_leaves", client_leaves),
    ("client_leaves_with_requests", client_leaves_with_requests),
    ("server_kills", server_kills),
    ("server_kills_in_request", server_kills_in_request),
    ("server_leaves", server_leaves),
    ("error_in_request", error_in_request),
    ("error_from_outside", error_from_outside),
    ("error_on_display", error_on_display),
    ("error_twice", error_twice),
    ("requests_after_error", requests_after_error),
    ("panic_in_request", panic_in_request),
    ("panic_in_event", panic_in_event),
    ("weak", weak),
    ("sessions_are_equal", sessions_are_equal),
    ("second_client", second_client),
];

fn client_leaves(told: &Told) {
    let mut world = World::new(told, Setup::default());
    world.client = None;
    world.serve();
    world.serve();
    world.dispatch_one();
}

fn client_leaves_with_requests(told: &Told) {
    let mut world = World::new(told, Setup::default());
    let shape = world.shape.clone();
    world.request(
        &shape,
        MAKE,
        vec![Argument::NewId(client::ObjectId::null())],
    );
    world.request(&shape, NUMBER, vec![Argument::Int(1)]);
    world.flush();
    world.client = None;
    world.serve();
    world.serve();
    world.dispatch_one();
}

fn server_kills(told: &Told) {
    let mut world = World::new(told, Setup::default());
    let shape = world.shape.clone();
    world.event(world.bound(), NUMBER, vec![Argument::Int(1)]);
    world
        .handle()
        .kill_client(world.id.clone(), server::DisconnectReason::ConnectionClosed);
    world.request(&shape, NUMBER, vec![Argument::Int(2)]);
    world.dispatch_one();
    world.turn();
    world.read();
    world.request(&shape, NUMBER, vec![Argument::Int(3)]);
    world.flush();
    world.flush();
    world.tell("last error", world.client().last_error().is_some());
    world.tell("info", world.client().info(shape.clone()).is_ok());
    world.tell("can read", world.client().prepare_read().is_some());
}

fn server_kills_in_request(told: &Told) {
    let server = |told: &Told| {
        let on_request =
            |handle: &server::Handle, client: &server::ClientId, _: &server::ObjectId| {
                handle.kill_client(client.clone(), server::DisconnectReason::ConnectionClosed);
            };
        ServerObject {
            on_request: Some(Box::new(on_request)),
            ..ServerObject::new(told, "kills")
        }
    };
    let mut world = World::new(
        told,
        Setup {
            server: Box::new(server),
            ..Setup::default()
        },
    );
    let shape = world.shape.clone();
    world.request(
        &shape,
        MAKE,
        vec![Argument::NewId(client::ObjectId::null())],
    );
    world.request(&shape, NUMBER, vec![Argument::Int(1)]);
    world.turn();
    world.turn();
}

fn server_leaves(told: &Told) {
    let World {
        client,
        server,
        handler,
        state,
        ..
    } = World::new(told, Setup::default());
    let client = client.unwrap();
    let handle = server.handle().downgrade();
    drop((server, handler, state));
    told.say(format!("upgrade {}", handle.upgrade().is_some()));
    for _ in 0..2 {
        match client.prepare_read() {
            Some(guard) => told.say(format!("read {}", crate::told::client(guard.read()))),
            None => told.say("nothing can be read"),
        }
    }
    told.say(format!("last error {:?}", client.last_error().is_some()));
}

/// A server whose object posts an error at each request.
fn posts_errors() -> Setup {
    let server = |told: &Told| {
        let on_request = |handle: &server::Handle, _: &server::ClientId, id: &server::ObjectId| {
            handle.post_error(id.clone(), 7, c"no".into());
        };
        ServerObject {
            on_request: Some(Box::new(on_request)),
            ..ServerObject::new(told, "refuses")
        }
    };
    Setup {
        server: Box::new(server),
        ..Setup::default()
    }
}

fn error_in_request(told: &Told) {
    let mut world = World::new(told, posts_errors());
    let shape = world.shape.clone();
    world.request(
        &shape,
        MAKE,
        vec![Argument::NewId(client::ObjectId::null())],
    );
    world.request(&shape, NUMBER, vec![Argument::Int(1)]);
    world.turn();
    world.read();
    world.flush();
    world.turn();
    world.tell("last error", world.client().last_error());
}

fn error_from_outside(told: &Told) {
    let mut world = World::new(told, Setup::default());
    world.event(world.bound(), NUMBER, vec![Argument::Int(1)]);
    world
        .handle()
        .post_error(world.bound(), 3, c"enough".into());
    world.event(world.bound(), NUMBER, vec![Argument::Int(2)]);
    world.serve();
    world.read();
    world.read();
    world.serve();
}

fn error_on_display(told: &Told) {
    let mut world = World::new(told, Setup::default());
    let handle = world.handle();
    let display =
        handle.object_for_protocol_id(world.id.clone(), client::ObjectId::null().interface(), 1);
    world.tell("by another interface", display.is_ok());
    let mut all = vec![];
    handle
        .with_all_objects_for(world.id.clone(), |id| all.push(id))
        .unwrap();
    let display = all.into_iter().find(|id| id.protocol_id() == 1).unwrap();
    handle.post_error(display, 1, c"of the display".into());
    world.serve();
    world.read();
}

fn error_twice(told: &Told) {
    let mut world = World::new(told, Setup::default());
    for code in 1..=2 {
        world
            .handle()
            .post_error(world.bound(), code, c"twice".into());
    }
    world.serve();
    world.read();
}

fn requests_after_error(told: &Told) {
    let mut world = World::new(told, Setup::default());
    let shape = world.shape.clone();
    world.handle().post_error(world.bound(), 1, c"over".into());
    world.serve();
    world.read();
    let display = world.client().display_id();
    world.request(&display, 0, vec![Argument::NewId(client::ObjectId::null())]);
    world.request(&shape, NUMBER, vec![Argument::Int(1)]);
    world.request(&shape, END, vec![]);
    world.tell("info", world.client().info(shape).is_ok());
    world.flush();
}

fn panic_in_request(told: &Told) {
    let server = |told: &Told| {
        let on_request = |_: &server::Handle, _: &server::ClientId, _: &server::ObjectId| {
            panic!("a handler's own")
        };
        ServerObject {
            on_request: Some(Box::new(on_request)),
            ..ServerObject::new(told, "panics")
        }
    };
    let mut world = World::new(
        told,
        Setup {
            server: Box::new(server),
            ..Setup::default()
        },
    );
    let shape = world.shape.clone();
    world.request(&shape, NUMBER, vec![Argument::Int(1)]);
    world.request(&shape, NUMBER, vec![Argument::Int(2)]);
    world.flush();
    for _ in 0..2 {
        let answer = or_panic(|| world.dispatch());
        world.say(format!("dispatch: {answer}"));
    }
    world.event(world.bound(), NUMBER, vec![Argument::Int(3)]);
    world.flush_server();
    world.read();
}

fn panic_in_event(told: &Told) {
    let client = |told: &Told| {
        let on_event = |_: &client::Backend, _: &client::ObjectId| panic!("a handler's own");
        ClientObject {
            on_event: Some(Box::new(on_event)),
            ..ClientObject::new(told, "panics")
        }
    };
    let mut world = World::new(
        told,
        Setup {
            client: Box::new(client),
            ..Setup::default()
        },
    );
    for number in 1..=2 {
        world.event(world.bound(), NUMBER, vec![Argument::Int(number)]);
    }
    world.flush_server();
    for _ in 0..3 {
        let answer = or_panic(|| world.read());
        world.say(format!("read: {answer}"));
    }
    let shape = world.shape.clone();
    world.request(&shape, NUMBER, vec![Argument::Int(4)]);
    world.turn();
}

fn weak(told: &Told) {
    let mut world = World::new(told, Setup::default());
    let weak = world.client().downgrade();
    let handle = world.handle().downgrade();
    world.tell(
        "upgrade",
        (weak.upgrade().is_some(), handle.upgrade().is_some()),
    );
    world.client = None;
    world.tell(
        "upgrade",
        (weak.upgrade().is_some(), handle.upgrade().is_some()),
    );
}

fn sessions_are_equal(told: &Told) {
    let world = World::new(told, Setup::default());
    let other = World::new(&Told::default(), Setup::default());
    world.tell(
        "session equal",
        (
            world.client() == world.client(),
            world.client() == other.client(),
        ),
    );
    let upgraded = world.client().downgrade().upgrade();
    world.tell("upgraded equal", upgraded == world.client);
    world.tell(
        "shapes equal",
        (
            world.shape == world.shape.clone(),
            world.shape == world.registry,
        ),
    );
    world.tell(
        "nulls equal",
        client::ObjectId::null() == client::ObjectId::null(),
    );
    world.tell(
        "nulls of the server equal",
        server::ObjectId::null() == server::ObjectId::null(),
    );
    world.tell("same client", world.bound().same_client_as(&world.bound()));
}

fn second_client(told: &Told) {
    let mut world = World::new(told, Setup::default());
    let (ours, theirs) = std::os::unix::net::UnixStream::pair().unwrap();
    let mut handle = world.handle();
    let second = handle
        .insert_client(theirs, Arc::new(Client(told.clone())))
        .unwrap();
    world.tell("ids equal", (second == world.id, second == second.clone()));
    let other = client::Backend::connect(ours).unwrap();
    let data = Arc::new(ClientObject::new(told, "sync of the second"));
    let sync = message!(
        other.display_id(),
        0,
        [Argument::NewId(client::ObjectId::null())]
    );
    other.send_request(sync, Some(data), None).unwrap();
    told.say(format!("flushed {}", crate::told::client(other.flush())));
    world.serve();
    told.say(format!(
        "read {}",
        crate::told::client(other.prepare_read().unwrap().read())
    ));
    handle.kill_client(second.clone(), server::DisconnectReason::ConnectionClosed);
    world.serve();
    told.say(format!(
        "read {}",
        crate::told::client(other.prepare_read().unwrap().read())
    ));
    // The first is served as before.
    let shape = world.shape.clone();
    world.request(&shape, NUMBER, vec![Argument::Int(1)]);
    world.turn();
    let (_kept, theirs) = std::os::unix::net::UnixStream::pair().unwrap();
    let third = handle
        .insert_client(theirs, Arc::new(Client(told.clone())))
        .unwrap();
    world.tell("ids equal", second == third);
    world.tell(
        "data",
        (
            handle.get_client_data(second).is_ok(),
            handle.get_client_data(third).is_ok(),
        ),
    );
}
