//! Globals.

use std::os::unix::net::UnixStream;
use std::sync::Arc;

use wayland_backend::server;

use crate::table::*;
use crate::told::Told;
use crate::world::*;
use crate::Case;

pub const CASES: &[Case] = &[
    ("global_life", global_life),
    ("global_hidden", global_hidden),
    ("hidden_global_life", hidden_global_life),
    ("global_seen_by_client_data", global_seen_by_client_data),
    ("global_bound_after_disable", global_bound_after_disable),
    ("global_of_too_high_a_version", global_of_too_high_a_version),
    ("global_info", global_info),
    ("global_of_a_stranger", global_of_a_stranger),
    ("registries", registries),
];

fn global_life(told: &Told) {
    let mut world = World::new(told, Setup::default());
    let handle = world.handle();
    let second = handle.create_global::<State>(&SHAPE, 2, world.handler.clone());
    world.serve();
    world.read();
    for _ in 0..2 {
        handle.disable_global::<State>(second.clone());
    }
    world.tell(
        "disabled",
        handle.global_info(second.clone()).map(|it| it.disabled),
    );
    world.serve();
    world.read();
    for _ in 0..2 {
        handle.remove_global::<State>(second.clone());
    }
    world.tell("info", handle.global_info(second.clone()).is_ok());
    world.tell(
        "handler",
        handle.get_global_handler::<State>(second.clone()).is_ok(),
    );
    world.serve();
    world.read();
    let third = handle.create_global::<State>(&SHAPE, 1, world.handler.clone());
    world.tell("equal", second == third);
    handle.remove_global::<State>(world.global.clone());
    world.serve();
    world.read();
    // What was bound before lives on.
    let shape = world.shape.clone();
    world.request(
        &shape,
        NUMBER,
        vec![wayland_backend::protocol::Argument::Int(1)],
    );
    world.turn();
}

fn global_hidden(told: &Told) {
    let mut world = World::by_hand(
        told,
        Setup {
            is_shown: false,
            ..Setup::default()
        },
    );
    world.send(&[1, 12 << 16 | 1, 2]);
    world.serve();
    world.receive();
    world.send(&[2, 32 << 16, 1, 6, 0x7061_6873, 0x65, 3, 3]);
    world.serve();
    world.receive();
}

/// A global that nobody sees is made, disabled and removed beside a client with two registries.
fn hidden_global_life(told: &Told) {
    let mut world = World::new(told, Setup::default());
    let handle = world.handle();
    let display = world.client().display_id();
    let null = wayland_backend::client::ObjectId::null;
    world.request(
        &display,
        1,
        vec![wayland_backend::protocol::Argument::NewId(null())],
    );
    world.turn();
    let handler = Arc::new(Global {
        told: told.clone(),
        bound: Default::default(),
        is_shown: false,
        object: Box::new(|told| ServerObject::new(told, "hidden")),
    });
    let hidden = handle.create_global::<State>(&SHAPE, 2, handler);
    world.serve();
    world.read();
    world.tell(
        "hidden",
        handle
            .global_info(hidden.clone())
            .map(|it| (it.version, it.disabled)),
    );
    handle.disable_global::<State>(hidden.clone());
    world.serve();
    world.read();
    handle.remove_global::<State>(hidden.clone());
    world.tell("info", handle.global_info(hidden).is_ok());
    world.serve();
    world.read();
    // Its name is the next global's, which all see.
    handle.create_global::<State>(&SHAPE, 1, world.handler.clone());
    world.serve();
    world.read();
}

/// A client that is no member of anything.
struct Guest(Told);

impl server::ClientData for Guest {
    fn disconnected(&self, _: server::ClientId, reason: server::DisconnectReason) {
        self.0.say(format!("guest disconnected: {reason:?}"));
    }
}

/// A global that guests do not see.
struct ForMembers(Told);

impl server::GlobalHandler<State> for ForMembers {
    fn can_view(
        &self,
        _: server::ClientId,
        data: &Arc<dyn server::ClientData>,
        _: server::GlobalId,
    ) -> bool {
        data.downcast_ref::<Guest>().is_none()
    }

    fn bind(
        self: Arc<Self>,
        _: &server::Handle,
        _: &mut State,
        _: server::ClientId,
        _: server::GlobalId,
        id: server::ObjectId,
    ) -> Arc<dyn server::ObjectData<State>> {
        self.0.say(format!("bind {id} of members"));
        Arc::new(ServerObject::new(&self.0, "for members"))
    }
}

/// A member and a guest, one global for members before the guest comes and one after that.
fn global_seen_by_client_data(told: &Told) {
    let mut world = World::new(told, Setup::default());
    let mut handle = world.handle();
    handle.create_global::<State>(&SHAPE, 2, Arc::new(ForMembers(told.clone())));
    world.serve();
    world.read();
    let (guest, theirs) = UnixStream::pair().unwrap();
    guest.set_nonblocking(true).unwrap();
    handle
        .insert_client(theirs, Arc::new(Guest(told.clone())))
        .unwrap();
    world.raw = Some(guest);
    world.send(&[1, 12 << 16 | 1, 2]);
    world.serve();
    world.receive();
    handle.create_global::<State>(&SHAPE, 1, Arc::new(ForMembers(told.clone())));
    world.serve();
    world.read();
    world.receive();
    for name in [2, 3] {
        world
            .bind(
                name,
                "shape",
                1,
                &SHAPE,
                Arc::new(ClientObject::new(told, "of members")),
            )
            .unwrap();
    }
    world.turn();
    world.send(&[2, 32 << 16, 3, 6, 0x7061_6873, 0x65, 1, 3]);
    world.serve();
    world.receive();
    world.turn();
}

fn global_bound_after_disable(told: &Told) {
    let mut world = World::new(told, Setup::default());
    let handle = world.handle();
    handle.disable_global::<State>(world.global.clone());
    // The client does not know it yet.
    let late = world
        .bind(
            1,
            "shape",
            3,
            &SHAPE,
            Arc::new(ClientObject::new(told, "late")),
        )
        .unwrap();
    world.turn();
    world.request(
        &late,
        NUMBER,
        vec![wayland_backend::protocol::Argument::Int(1)],
    );
    world.turn();
    handle.remove_global::<State>(world.global.clone());
    world
        .bind(
            1,
            "shape",
            3,
            &SHAPE,
            Arc::new(ClientObject::new(told, "too late")),
        )
        .unwrap();
    world.turn();
    world.read();
}

fn global_of_too_high_a_version(told: &Told) {
    let world = World::new(told, Setup::default());
    let handle = world.handle();
    let handler = world.handler.clone();
    world.say(format!(
        "create: {}",
        or_panic(|| handle.create_global::<State>(&SHAPE, 9, handler))
    ));
}

fn global_info(told: &Told) {
    let world = World::new(told, Setup::default());
    let handle = world.handle();
    let info = handle.global_info(world.global.clone()).unwrap();
    world.tell("global", (info.interface.name, info.version, info.disabled));
    world.tell("same static", std::ptr::eq(info.interface, &SHAPE));
    let handler = handle
        .get_global_handler::<State>(world.global.clone())
        .unwrap();
    let same = handler
        .downcast_ref::<Global>()
        .is_some_and(|it| std::ptr::eq(it, &*world.handler));
    world.tell("same handler", same);
}

fn global_of_a_stranger(told: &Told) {
    let mut world = World::new(told, Setup::default());
    let handle = world.handle();
    handle.create_global::<State>(&STRANGER, 1, world.handler.clone());
    world.serve();
    world.read();
    let bound = world
        .bind(
            2,
            "stranger",
            1,
            &STRANGER,
            Arc::new(ClientObject::new(told, "stranger")),
        )
        .unwrap();
    world.turn();
    world.request(
        &bound,
        NUMBER,
        vec![wayland_backend::protocol::Argument::Int(1)],
    );
    world.turn();
    let ids = world.handler.bound.lock().unwrap().clone();
    world.tell("same static", std::ptr::eq(ids[1].interface(), &STRANGER));
}

fn registries(told: &Told) {
    let mut world = World::new(told, Setup::default());
    let handle = world.handle();
    let display = world.client().display_id();
    let null = wayland_backend::client::ObjectId::null;
    world.request(
        &display,
        1,
        vec![wayland_backend::protocol::Argument::NewId(null())],
    );
    world.turn();
    handle.create_global::<State>(&SHAPE, 1, world.handler.clone());
    handle.disable_global::<State>(world.global.clone());
    world.request(
        &display,
        1,
        vec![wayland_backend::protocol::Argument::NewId(null())],
    );
    world.turn();
    world.turn();
}
