//! Two versions of one protocol in one connection: statics of one name, of which one has what the other has, and more.

use std::sync::Arc;

use wayland_backend::protocol::{Argument, Interface};
use wayland_backend::{client, server};

use crate::table::*;
use crate::told::Told;
use crate::world::*;
use crate::Case;

pub const CASES: &[Case] = &[
    ("client_of_two_versions_older_first", |told| {
        client_of_two(told, &PEN_1, &PEN_3)
    }),
    ("client_of_two_versions_newer_first", |told| {
        client_of_two(told, &PEN_3, &PEN_1)
    }),
    ("server_of_two_versions_older_first", |told| {
        server_of_two(told, &PEN_1, &PEN_3)
    }),
    ("server_of_two_versions_newer_first", |told| {
        server_of_two(told, &PEN_3, &PEN_1)
    }),
    ("sends_what_a_static_lacks", sends_what_a_static_lacks),
    ("event_that_a_static_lacks", event_that_a_static_lacks),
    ("request_that_a_static_lacks", request_that_a_static_lacks),
    ("client_of_another_protocol", client_of_another_protocol),
    ("server_of_another_protocol", server_of_another_protocol),
];

/// Binds a pen by this static, in its version.
fn bind(
    world: &World,
    global: u32,
    pen: &'static Interface,
    name: &'static str,
) -> client::ObjectId {
    let data = Arc::new(ClientObject::new(&world.told, name));
    world
        .bind(global, "pen", pen.version, pen, data)
        .unwrap_or_else(|_| client::ObjectId::null())
}

/// The object that was bound last but so many.
fn bound(world: &World, before_last: usize) -> server::ObjectId {
    let bound = world.handler.bound.lock().unwrap();
    bound[bound.len() - 1 - before_last].clone()
}

fn draw(world: &World, pen: &client::ObjectId) {
    world.request(pen, DRAW, vec![Argument::Int(7)]);
}

fn fill(world: &World, pen: &client::ObjectId) -> client::ObjectId {
    let new = Argument::NewId(client::ObjectId::null());
    world.request(pen, FILL, vec![text("blue"), new])
}

fn client_of_two(told: &Told, first: &'static Interface, second: &'static Interface) {
    let mut world = World::new(told, Setup::default());
    world
        .handle()
        .create_global::<State>(&PEN_3, 3, world.handler.clone());
    world.serve();
    world.read();
    let one = bind(&world, 2, first, "first pen");
    world.turn();
    let two = bind(&world, 2, second, "second pen");
    world.turn();
    let pens = [
        (&one, bound(&world, 1), first),
        (&two, bound(&world, 0), second),
    ];
    for (_, pen, interface) in &pens {
        world.event(pen.clone(), DREW, vec![Argument::Int(5)]);
        if interface.version >= 3 {
            world.event(pen.clone(), EMPTY, vec![text("at once")]);
        }
    }
    world.flush_server();
    world.read();
    for (pen, _, interface) in &pens {
        draw(&world, pen);
        if interface.version >= 3 {
            let ink = fill(&world, pen);
            world.tell("ink", ink.interface().name);
        }
        world.tell("has its static", std::ptr::eq(pen.interface(), *interface));
    }
    world.turn();
}

fn server_of_two(told: &Told, first: &'static Interface, second: &'static Interface) {
    let mut world = World::new(told, Setup::default());
    let handle = world.handle();
    for interface in [first, second] {
        let handler = world.handler.clone();
        let global = or_panic(|| {
            let global = handle.create_global::<State>(interface, interface.version, handler);
            handle.global_info(global).unwrap().version
        });
        world.say(format!("global: {global}"));
    }
    world.serve();
    world.read();
    // The client knows the newer one alone.
    for (name, interface) in [(2, first), (3, second)] {
        let data = Arc::new(ClientObject::new(told, "pen"));
        let pen = world
            .bind(name, "pen", interface.version, &PEN_3, data)
            .unwrap();
        world.turn();
        let pen_of_server = bound(&world, 0);
        world.tell(
            "has its static",
            std::ptr::eq(pen_of_server.interface(), interface),
        );
        draw(&world, &pen);
        if interface.version >= 3 {
            fill(&world, &pen);
        }
        world.turn();
        world.event(pen_of_server.clone(), DREW, vec![Argument::Int(6)]);
        if interface.version >= 3 {
            world.event(pen_of_server, EMPTY, vec![text("at last")]);
        }
        world.flush_server();
        world.read();
    }
    let made = world.create(&PEN_3, 3);
    world.tell(
        "made has its static",
        std::ptr::eq(made.interface(), &PEN_3),
    );
}

/// A program sends a message of the newer version by an object of the older one, which is a misuse.
fn sends_what_a_static_lacks(told: &Told) {
    let mut world = World::new(told, Setup::default());
    let handle = world.handle();
    handle.create_global::<State>(&PEN_3, 3, world.handler.clone());
    handle.create_global::<State>(&PEN_1, 1, world.handler.clone());
    world.serve();
    world.read();
    bind(&world, 2, &PEN_3, "newer pen");
    let pen = bind(&world, 3, &PEN_1, "older pen");
    world.turn();
    fill(&world, &pen);
    world.event(bound(&world, 0), EMPTY, vec![text("too late")]);
}

/// A server sends an event of the newer version to an object of the older one.
fn event_that_a_static_lacks(told: &Told) {
    let mut world = World::new(told, Setup::default());
    world
        .handle()
        .create_global::<State>(&PEN_3, 3, world.handler.clone());
    world.serve();
    world.read();
    bind(&world, 2, &PEN_3, "newer pen");
    bind(&world, 2, &PEN_1, "older pen");
    world.turn();
    let pen = bound(&world, 0);
    world.event(pen.clone(), DREW, vec![Argument::Int(5)]);
    world.event(pen, EMPTY, vec![text("too early")]);
    world.flush_server();
    world.read();
    world.flush();
}

/// And a client a request.
fn request_that_a_static_lacks(told: &Told) {
    let mut world = World::new(told, Setup::default());
    let handle = world.handle();
    handle.create_global::<State>(&PEN_3, 3, world.handler.clone());
    handle.create_global::<State>(&PEN_1, 1, world.handler.clone());
    world.serve();
    world.read();
    let data = Arc::new(ClientObject::new(told, "pen"));
    let pen = world.bind(3, "pen", 1, &PEN_3, data).unwrap();
    world.turn();
    draw(&world, &pen);
    fill(&world, &pen);
    world.flush();
    world.dispatch();
    world.flush_server();
    world.tell(
        "is there",
        world
            .handle()
            .get_client_credentials(world.id.clone())
            .is_ok(),
    );
}

/// Statics of one name that contradict each other.
fn client_of_another_protocol(told: &Told) {
    let mut world = World::new(told, Setup::default());
    world
        .handle()
        .create_global::<State>(&PEN_3, 3, world.handler.clone());
    world.serve();
    world.read();
    bind(&world, 2, &PEN_1, "pen");
    let data = Arc::new(ClientObject::new(told, "other pen"));
    let other = or_panic(|| world.bind(2, "pen", 2, &OTHER_PEN, data).is_ok());
    world.say(format!("other pen: {other}"));
    bind(&world, 2, &PEN_3, "newer pen");
    world.turn();
}

fn server_of_another_protocol(told: &Told) {
    let world = World::new(told, Setup::default());
    let handle = world.handle();
    for interface in [&PEN_3, &OTHER_PEN, &PEN_1] {
        let handler = world.handler.clone();
        let global = or_panic(|| {
            let global = handle.create_global::<State>(interface, interface.version, handler);
            handle.global_info(global).unwrap().version
        });
        world.say(format!("global: {global}"));
    }
}
