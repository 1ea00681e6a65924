//! Calls that the program should not make.

use std::sync::Arc;

use wayland_backend::protocol::Argument;
use wayland_backend::{client, server};

use crate::table::*;
use crate::told::Told;
use crate::world::*;
use crate::Case;

pub const CASES: &[Case] = &[
    ("request_of_no_such_opcode", request_of_no_such_opcode),
    ("request_of_wrong_type", request_of_wrong_type),
    ("request_with_too_few", request_with_too_few),
    ("request_of_null", request_of_null),
    ("request_with_null_object", request_with_null_object),
    ("request_with_wrong_object", request_with_wrong_object),
    ("request_with_dead_object", request_with_dead_object),
    ("request_above_version", request_above_version),
    ("request_without_data", request_without_data),
    (
        "request_with_data_for_nothing",
        request_with_data_for_nothing,
    ),
    ("request_with_ids_of_another", request_with_ids_of_another),
    ("bind_of_wrong_version", bind_of_wrong_version),
    ("event_of_no_such_opcode", event_of_no_such_opcode),
    ("event_of_wrong_type", event_of_wrong_type),
    ("event_of_null", event_of_null),
    ("event_with_null_object", event_with_null_object),
    ("event_with_null_new_id", event_with_null_new_id),
    ("event_with_wrong_object", event_with_wrong_object),
    ("event_with_wrong_new_id", event_with_wrong_new_id),
    ("event_with_ids_of_another", event_with_ids_of_another),
    ("event_above_version", event_above_version),
    (
        "data_for_nothing_from_request",
        data_for_nothing_from_request,
    ),
    ("no_data_from_request", no_data_from_request),
    ("no_data_from_event", no_data_from_event),
    ("data_for_nothing_from_event", data_for_nothing_from_event),
    ("session_after_bad_request", session_after_bad_request),
    ("session_after_bad_event", session_after_bad_event),
    ("wrong_state_type", wrong_state_type),
    ("ids_of_a_client_that_left", ids_of_a_client_that_left),
];

fn null() -> client::ObjectId {
    client::ObjectId::null()
}

/// Whether the session still works after what the program did. After a panic it is another scenario's question.
fn still_works(world: &mut World) {
    if world.told.last().ends_with("panic") {
        return;
    }
    use_both(world);
}

fn use_both(world: &mut World) {
    let shape = world.shape.clone();
    world.request(&shape, NUMBER, vec![Argument::Int(1)]);
    world.event(world.bound(), NUMBER, vec![Argument::Int(2)]);
    world.turn();
}

fn request_of_no_such_opcode(told: &Told) {
    let mut world = World::new(told, Setup::default());
    let shape = world.shape.clone();
    world.request(&shape, 99, vec![]);
    still_works(&mut world);
}

fn request_of_wrong_type(told: &Told) {
    let mut world = World::new(told, Setup::default());
    let shape = world.shape.clone();
    world.request(&shape, NUMBER, vec![Argument::Uint(1)]);
    still_works(&mut world);
}

fn request_with_too_few(told: &Told) {
    let mut world = World::new(told, Setup::default());
    let shape = world.shape.clone();
    world.request(&shape, WRITE, vec![text("one")]);
    still_works(&mut world);
}

fn request_of_null(told: &Told) {
    let mut world = World::new(told, Setup::default());
    world.request(&null(), NUMBER, vec![Argument::Int(1)]);
    still_works(&mut world);
}

fn request_with_null_object(told: &Told) {
    let mut world = World::new(told, Setup::default());
    let shape = world.shape.clone();
    let all = vec![
        Argument::Uint(1),
        Argument::Int(2),
        Argument::Fixed(3),
        text("a"),
        Argument::Array(Box::default()),
        Argument::Object(null()),
        Argument::Fd(0),
    ];
    world.request(&shape, ALL, all);
    still_works(&mut world);
}

fn request_with_wrong_object(told: &Told) {
    let mut world = World::new(told, Setup::default());
    let (shape, registry) = (world.shape.clone(), world.registry.clone());
    world.request(
        &shape,
        WRITE,
        vec![text("a registry"), Argument::Object(registry)],
    );
    still_works(&mut world);
}

fn request_with_dead_object(told: &Told) {
    let mut world = World::new(told, Setup::default());
    let shape = world.shape.clone();
    let child = world.request(&shape, MAKE, vec![Argument::NewId(null())]);
    world.request(&child, END, vec![]);
    world.request(
        &shape,
        WRITE,
        vec![text("a dead object"), Argument::Object(child)],
    );
    still_works(&mut world);
}

fn request_above_version(told: &Told) {
    let mut world = World::new(told, Setup::default());
    let low = world
        .bind(
            1,
            "shape",
            1,
            &SHAPE,
            Arc::new(ClientObject::new(told, "low")),
        )
        .unwrap();
    world.turn();
    world.request(&low, LATE, vec![]);
    world.turn();
    still_works(&mut world);
}

fn request_without_data(told: &Told) {
    let mut world = World::new(told, Setup::default());
    let shape = world.shape.clone();
    world.request_with(&shape, MAKE, vec![Argument::NewId(null())], None);
    still_works(&mut world);
}

fn request_with_data_for_nothing(told: &Told) {
    let mut world = World::new(told, Setup::default());
    let shape = world.shape.clone();
    let data = Arc::new(ClientObject::new(told, "for nothing"));
    world.request_with(&shape, NUMBER, vec![Argument::Int(1)], Some(data));
    still_works(&mut world);
}

fn request_with_ids_of_another(told: &Told) {
    let world = World::new(told, Setup::default());
    // The other session has more objects, so that its ids are unknown in the first.
    let other = World::new(&Told::default(), Setup::default());
    let shape = other.shape.clone();
    let foreign = other.request(&shape, MAKE, vec![Argument::NewId(null())]);
    world.request(&foreign, NUMBER, vec![Argument::Int(1)]);
    let own = world.shape.clone();
    world.request(
        &own,
        WRITE,
        vec![text("foreign"), Argument::Object(foreign)],
    );
}

fn bind_of_wrong_version(told: &Told) {
    let mut world = World::new(told, Setup::default());
    let arguments = vec![
        Argument::Uint(1),
        text("shape"),
        Argument::Uint(2),
        Argument::NewId(null()),
    ];
    let client = world.client();
    let bind = wayland_backend::protocol::Message {
        sender_id: world.registry.clone(),
        opcode: 0,
        args: arguments.into(),
    };
    let data: Arc<dyn client::ObjectData> = Arc::new(ClientObject::new(told, "other"));
    let answer = or_panic(|| {
        client
            .send_request(bind, Some(data), Some((&SHAPE, 3)))
            .map(|it| it.to_string())
    });
    world.say(format!("bind: {answer}"));
    still_works(&mut world);
}

fn event_of_no_such_opcode(told: &Told) {
    let mut world = World::new(told, Setup::default());
    world.event(world.bound(), 99, vec![]);
    still_works(&mut world);
}

fn event_of_wrong_type(told: &Told) {
    let mut world = World::new(told, Setup::default());
    world.event(world.bound(), NUMBER, vec![Argument::Fixed(1)]);
    still_works(&mut world);
}

fn event_of_null(told: &Told) {
    let mut world = World::new(told, Setup::default());
    world.event(server::ObjectId::null(), NUMBER, vec![Argument::Int(1)]);
    still_works(&mut world);
}

fn event_with_null_object(told: &Told) {
    let mut world = World::new(told, Setup::default());
    let all = vec![
        Argument::Uint(1),
        Argument::Int(2),
        Argument::Fixed(3),
        text("a"),
        Argument::Array(Box::default()),
        Argument::Object(server::ObjectId::null()),
        Argument::Fd(0),
    ];
    world.event(world.bound(), ALL, all);
    still_works(&mut world);
}

fn event_with_null_new_id(told: &Told) {
    let mut world = World::new(told, Setup::default());
    world.event(
        world.bound(),
        MAKE,
        vec![Argument::NewId(server::ObjectId::null())],
    );
    world.serve();
    world.read();
}

fn event_with_wrong_object(told: &Told) {
    let mut world = World::new(told, Setup::default());
    let stranger = world.create(&STRANGER, 1);
    world.event(
        world.bound(),
        WRITE,
        vec![text("a stranger"), Argument::Object(stranger)],
    );
    still_works(&mut world);
}

fn event_with_wrong_new_id(told: &Told) {
    let mut world = World::new(told, Setup::default());
    let stranger = world.create(&STRANGER, 1);
    world.event(world.bound(), MAKE, vec![Argument::NewId(stranger)]);
    still_works(&mut world);
}

fn event_with_ids_of_another(told: &Told) {
    let mut world = World::new(told, Setup::default());
    // A second client of the same server.
    let (_socket, theirs) = std::os::unix::net::UnixStream::pair().unwrap();
    let mut handle = world.handle();
    let second = handle
        .insert_client(theirs, Arc::new(Client(told.clone())))
        .unwrap();
    let data = Arc::new(ServerObject::new(told, "of the second"));
    let foreign = handle
        .create_object::<State>(second, &SHAPE, 3, data)
        .unwrap();
    world.event(
        world.bound(),
        WRITE,
        vec![text("foreign"), Argument::Object(foreign)],
    );
    still_works(&mut world);
}

fn event_above_version(told: &Told) {
    let mut world = World::new(told, Setup::default());
    let low = world.create(&SHAPE, 1);
    world.event(world.bound(), MAKE, vec![Argument::NewId(low.clone())]);
    world.event(low, LATE, vec![]);
    world.serve();
    world.read();
    still_works(&mut world);
}

fn data_for_nothing_from_request(told: &Told) {
    let server = |told: &Told| ServerObject {
        answer: Answer::Always,
        ..ServerObject::new(told, "answers always")
    };
    let mut world = World::new(
        told,
        Setup {
            server: Box::new(server),
            ..Setup::default()
        },
    );
    let shape = world.shape.clone();
    world.request(&shape, NUMBER, vec![Argument::Int(1)]);
    world.flush();
    let panics = or_panic(|| world.serve());
    world.say(format!("serve: {panics}"));
}

fn no_data_from_request(told: &Told) {
    let server = |told: &Told| ServerObject {
        answer: Answer::Never,
        ..ServerObject::new(told, "answers never")
    };
    let mut world = World::new(
        told,
        Setup {
            server: Box::new(server),
            ..Setup::default()
        },
    );
    let shape = world.shape.clone();
    world.request(&shape, MAKE, vec![Argument::NewId(null())]);
    world.flush();
    let panics = or_panic(|| world.serve());
    world.say(format!("serve: {panics}"));
}

fn no_data_from_event(told: &Told) {
    let client = |told: &Told| ClientObject {
        answer: Answer::Never,
        ..ClientObject::new(told, "answers never")
    };
    let mut world = World::new(
        told,
        Setup {
            client: Box::new(client),
            ..Setup::default()
        },
    );
    let child = world.create(&SHAPE, 3);
    world.event(world.bound(), MAKE, vec![Argument::NewId(child)]);
    world.serve();
    let panics = or_panic(|| world.read());
    world.say(format!("read: {panics}"));
}

fn data_for_nothing_from_event(told: &Told) {
    let client = |told: &Told| ClientObject {
        answer: Answer::Always,
        ..ClientObject::new(told, "answers always")
    };
    let mut world = World::new(
        told,
        Setup {
            client: Box::new(client),
            ..Setup::default()
        },
    );
    world.event(world.bound(), NUMBER, vec![Argument::Int(1)]);
    world.serve();
    let panics = or_panic(|| world.read());
    world.say(format!("read: {panics}"));
}

fn session_after_bad_request(told: &Told) {
    let mut world = World::new(told, Setup::default());
    let shape = world.shape.clone();
    world.request(&shape, NUMBER, vec![]);
    let answer = or_panic(|| use_both(&mut world));
    world.say(format!("the session afterwards: {answer}"));
}

fn session_after_bad_event(told: &Told) {
    let mut world = World::new(told, Setup::default());
    world.event(world.bound(), NUMBER, vec![]);
    let answer = or_panic(|| use_both(&mut world));
    world.say(format!("the session afterwards: {answer}"));
}

fn wrong_state_type(told: &Told) {
    let world = World::new(told, Setup::default());
    let handle = world.handle();
    let bound = world.bound();
    world.say(format!(
        "data: {}",
        or_panic(|| handle.get_object_data::<u8>(bound.clone()).is_ok())
    ));
}

fn ids_of_a_client_that_left(told: &Told) {
    let mut world = World::new(told, Setup::default());
    let (handle, bound, id) = (world.handle(), world.bound(), world.id.clone());
    handle.kill_client(id.clone(), server::DisconnectReason::ConnectionClosed);
    world.serve();
    world.tell("info", handle.object_info(bound.clone()).is_ok());
    world.tell(
        "data",
        handle.get_object_data::<State>(bound.clone()).is_ok(),
    );
    world.tell("client", handle.get_client(bound.clone()).is_ok());
    world.tell("client data", handle.get_client_data(id.clone()).is_ok());
    world.tell(
        "credentials",
        handle.get_client_credentials(id.clone()).is_ok(),
    );
    world.tell(
        "objects",
        handle.with_all_objects_for(id.clone(), |_| ()).is_ok(),
    );
    let data = Arc::new(ServerObject::new(told, "late"));
    world.tell(
        "create",
        handle
            .create_object::<State>(id.clone(), &SHAPE, 3, data)
            .is_ok(),
    );
    world.event(bound.clone(), NUMBER, vec![Argument::Int(1)]);
    world.say(format!(
        "error: {}",
        or_panic(|| handle.post_error(bound, 1, c"late".into()))
    ));
    world.say(format!(
        "kill: {}",
        or_panic(|| handle.kill_client(id.clone(), server::DisconnectReason::ConnectionClosed))
    ));
    world.dispatch_one();
}
