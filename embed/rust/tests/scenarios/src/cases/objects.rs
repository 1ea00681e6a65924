//! The life of objects, and what is known of them.

use std::sync::{Arc, Mutex};

use wayland_backend::protocol::Argument;
use wayland_backend::{client, server};

use crate::table::*;
use crate::told::Told;
use crate::world::*;
use crate::Case;

pub const CASES: &[Case] = &[
    ("client_objects", client_objects),
    ("server_objects", server_objects),
    ("data_of_display", data_of_display),
    ("data_of_server", data_of_server),
    ("data_is_set", data_is_set),
    ("data_is_dropped", data_is_dropped),
    ("destructor_request", destructor_request),
    ("destructor_event", destructor_event),
    ("destructor_in_event", destructor_in_event),
    ("destructor_event_in_request", destructor_event_in_request),
    ("requests_in_event", requests_in_event),
    ("events_in_request", events_in_request),
    ("ids_are_reused", ids_are_reused),
    ("object_arguments", object_arguments),
    ("all_arguments", all_arguments),
    ("statics_of_one_name", statics_of_one_name),
    ("find_by_number", find_by_number),
    ("ids_as_text", ids_as_text),
    ("sync", sync),
    ("order_of_many", order_of_many),
];

fn new_id() -> ClientArgument {
    Argument::NewId(client::ObjectId::null())
}

fn client_objects(told: &Told) {
    let mut world = World::new(told, Setup::default());
    let shape = world.shape.clone();
    let child = world.request(&shape, MAKE, vec![new_id()]);
    let client = world.client();
    world.tell(
        "info",
        client
            .info(child.clone())
            .map(|it| (it.id, it.interface.name, it.version)),
    );
    world.turn();
    world.request(&child, NUMBER, vec![Argument::Int(-7)]);
    let grandchild = world.request(&child, MAKE, vec![new_id()]);
    world.request(&grandchild, NUMBER, vec![Argument::Int(8)]);
    world.turn();
    world.tell("data", client.get_data(grandchild.clone()).is_ok());
    world.request(&grandchild, END, vec![]);
    world.request(&child, END, vec![]);
    world.turn();
    world.tell("info", client.info(grandchild).is_ok());
}

fn server_objects(told: &Told) {
    let mut world = World::new(told, Setup::default());
    let created = world.create(&SHAPE, 3);
    world.tell("created", created.to_string());
    world.event(world.bound(), MAKE, vec![Argument::NewId(created.clone())]);
    world.event(created.clone(), NUMBER, vec![Argument::Int(5)]);
    world.serve();
    world.read();
    world.event(created.clone(), END, vec![]);
    world.tell("info", world.handle().object_info(created).is_ok());
    world.serve();
    world.read();
    world.turn();
}

fn data_of_display(told: &Told) {
    let world = World::new(told, Setup::default());
    let client = world.client();
    let display = client.display_id();
    world.tell(
        "info",
        client
            .info(display.clone())
            .map(|it| (it.id, it.interface.name, it.version)),
    );
    world.tell("data", client.get_data(display.clone()).is_ok());
    world.tell(
        "set",
        client
            .set_data(display, Arc::new(ClientObject::new(told, "other")))
            .is_ok(),
    );
    world.tell(
        "data of null",
        client.get_data(client::ObjectId::null()).is_ok(),
    );
    world.tell(
        "info of null",
        client.info(client::ObjectId::null()).is_ok(),
    );
    world.tell("last error", client.last_error());
    world.tell("queue", client.dispatch_inner_queue().map_err(|_| ()));
}

fn data_of_server(told: &Told) {
    let world = World::new(told, Setup::default());
    let handle = world.handle();
    let mut all = vec![];
    handle
        .with_all_objects_for(world.id.clone(), |id| all.push(id))
        .unwrap();
    for id in all {
        let data = handle.get_object_data::<State>(id.clone()).is_ok();
        let any = handle.get_object_data_any(id.clone()).is_ok();
        let info = handle
            .object_info(id.clone())
            .map(|it| (it.id, it.interface.name, it.version));
        world.say(format!(
            "{id}: data {data}, any {any}, {info:?}, of the client {:?}",
            handle.get_client(id.clone()).map(|it| it == world.id)
        ));
    }
    let mut count = 0;
    handle.with_all_clients(|_| count += 1);
    world.tell("clients", count);
    let credentials = handle.get_client_credentials(world.id.clone()).unwrap();
    world.tell("own process", credentials.pid == std::process::id() as i32);
    world.tell(
        "data of client",
        handle
            .get_client_data(world.id.clone())
            .unwrap()
            .downcast_ref::<Client>()
            .is_some(),
    );
    world.tell(
        "data of null",
        handle
            .get_object_data::<State>(server::ObjectId::null())
            .is_ok(),
    );
    world.tell(
        "info of null",
        handle.object_info(server::ObjectId::null()).is_ok(),
    );
}

fn data_is_set(told: &Told) {
    let mut world = World::new(told, Setup::default());
    let client = world.client();
    world.tell(
        "set",
        client
            .set_data(
                world.shape.clone(),
                Arc::new(ClientObject::new(told, "second")),
            )
            .is_ok(),
    );
    let handle = world.handle();
    let data = Arc::new(ServerObject::new(told, "second of server"));
    world.tell(
        "set",
        handle.set_object_data::<State>(world.bound(), data).is_ok(),
    );
    world.event(world.bound(), NUMBER, vec![Argument::Int(1)]);
    let shape = world.shape.clone();
    world.request(&shape, NUMBER, vec![Argument::Int(2)]);
    world.turn();
    world.request(&shape, END, vec![]);
    world.turn();
    world.tell(
        "set",
        client
            .set_data(shape, Arc::new(ClientObject::new(told, "third")))
            .is_ok(),
    );
    let data = Arc::new(ServerObject::new(told, "third of server"));
    world.tell(
        "set",
        handle.set_object_data::<State>(world.bound(), data).is_ok(),
    );
}

fn data_is_dropped(told: &Told) {
    let mut world = World::new(told, Setup::default());
    let data: Arc<dyn client::ObjectData> = Arc::new(ClientObject::new(told, "counted"));
    let shape = world.shape.clone();
    let child = world.request_with(&shape, MAKE, vec![new_id()], Some(data.clone()));
    let tell = |world: &World| world.tell("references", Arc::strong_count(&data));
    tell(&world);
    world.turn();
    world.request(&child, END, vec![]);
    tell(&world);
    world.flush();
    world.serve();
    tell(&world);
    world.read();
    tell(&world);
    // An object that the end of the session takes.
    let other: Arc<dyn client::ObjectData> = Arc::new(ClientObject::new(told, "counted"));
    world.request_with(&shape, MAKE, vec![new_id()], Some(other.clone()));
    world.client = None;
    world.tell("references after the end", Arc::strong_count(&other));
    // On the server.
    let handle = world.handle();
    let kept: Arc<dyn server::ObjectData<State>> =
        Arc::new(ServerObject::new(told, "counted of server"));
    let created = handle.create_object::<State>(world.id.clone(), &SHAPE, 3, kept.clone());
    world.tell("created", created.map(|it| it.to_string()));
    world.tell("references", Arc::strong_count(&kept));
    world.serve();
    world.tell(
        "references after the client's end",
        Arc::strong_count(&kept),
    );
}

fn destructor_request(told: &Told) {
    let mut world = World::new(told, Setup::default());
    let shape = world.shape.clone();
    let child = world.request(&shape, MAKE, vec![new_id()]);
    world.turn();
    world.request(&child, END, vec![]);
    let client = world.client();
    world.say(format!(
        "info {}, data {}",
        client.info(child.clone()).is_ok(),
        client.get_data(child.clone()).is_ok()
    ));
    world.request(&child, NUMBER, vec![Argument::Int(1)]);
    world.turn();
    world.say(format!(
        "info {}, data {}",
        client.info(child.clone()).is_ok(),
        client.get_data(child).is_ok()
    ));
    world.request(&shape, MAKE, vec![new_id()]);
    world.turn();
}

fn destructor_event(told: &Told) {
    let mut world = World::new(told, Setup::default());
    world.event(world.bound(), END, vec![]);
    world.event(world.bound(), NUMBER, vec![Argument::Int(2)]);
    let shape = world.shape.clone();
    world.request(&shape, NUMBER, vec![Argument::Int(3)]);
    world.flush();
    world.serve();
    world.read();
    world.request(&shape, NUMBER, vec![Argument::Int(4)]);
    world.turn();
}

fn destructor_in_event(told: &Told) {
    let client = |told: &Told| {
        let again = told.clone();
        let on_event = move |backend: &client::Backend, id: &client::ObjectId| {
            let end = wayland_backend::message!(id.clone(), END, []);
            again.say(format!(
                "ended: {}",
                backend.send_request(end, None, None).is_ok()
            ));
        };
        ClientObject {
            on_event: Some(Box::new(on_event)),
            ..ClientObject::new(told, "ends itself")
        }
    };
    let mut world = World::new(
        told,
        Setup {
            client: Box::new(client),
            ..Setup::default()
        },
    );
    for number in 1..=2 {
        world.event(world.bound(), NUMBER, vec![Argument::Int(number)]);
    }
    world.serve();
    world.read();
    world.turn();
}

fn destructor_event_in_request(told: &Told) {
    let server = |told: &Told| {
        let again = told.clone();
        let on_request =
            move |handle: &server::Handle, _: &server::ClientId, id: &server::ObjectId| {
                let end = wayland_backend::message!(id.clone(), END, []);
                again.say(format!("ended: {}", handle.send_event(end).is_ok()));
            };
        ServerObject {
            on_request: Some(Box::new(on_request)),
            ..ServerObject::new(told, "ends itself")
        }
    };
    let mut world = World::new(
        told,
        Setup {
            server: Box::new(server),
            ..Setup::default()
        },
    );
    let shape = world.shape.clone();
    for number in 1..=2 {
        world.request(&shape, NUMBER, vec![Argument::Int(number)]);
    }
    world.request(&shape, MAKE, vec![new_id()]);
    world.turn();
    world.turn();
}

fn requests_in_event(told: &Told) {
    let client = |told: &Told| {
        let again = told.clone();
        let on_event = move |backend: &client::Backend, id: &client::ObjectId| {
            let make = wayland_backend::message!(
                id.clone(),
                MAKE,
                [Argument::NewId(client::ObjectId::null())]
            );
            let data = Arc::new(ClientObject::new(&again, "made in event"));
            let made = backend.send_request(make, Some(data), None).unwrap();
            let data = backend.get_data(made.clone()).unwrap();
            again.say(format!(
                "made {made}, flush {}",
                crate::told::client(backend.flush())
            ));
            data.destroyed(made);
        };
        ClientObject {
            on_event: Some(Box::new(on_event)),
            ..ClientObject::new(told, "makes")
        }
    };
    let mut world = World::new(
        told,
        Setup {
            client: Box::new(client),
            ..Setup::default()
        },
    );
    for number in 1..=2 {
        world.event(world.bound(), NUMBER, vec![Argument::Int(number)]);
    }
    world.flush_server();
    world.read();
    world.turn();
}

fn events_in_request(told: &Told) {
    let created: Arc<Mutex<Vec<server::ObjectId>>> = Arc::default();
    let kept = created.clone();
    let server = move |told: &Told| {
        let (again, kept) = (told.clone(), kept.clone());
        let on_request = move |handle: &server::Handle,
                               client: &server::ClientId,
                               id: &server::ObjectId| {
            let data = Arc::new(ServerObject::new(&again, "created in request"));
            let new = handle
                .create_object::<State>(client.clone(), &SHAPE, 2, data)
                .unwrap();
            let make = wayland_backend::message!(id.clone(), MAKE, [Argument::NewId(new.clone())]);
            again.say(format!("made {new}: {}", handle.send_event(make).is_ok()));
            kept.lock().unwrap().push(new);
        };
        ServerObject {
            on_request: Some(Box::new(on_request)),
            ..ServerObject::new(told, "answers")
        }
    };
    let mut world = World::new(
        told,
        Setup {
            server: Box::new(server),
            ..Setup::default()
        },
    );
    let shape = world.shape.clone();
    for number in 1..=3 {
        world.request(&shape, NUMBER, vec![Argument::Int(number)]);
    }
    world.turn();
    let created = created.lock().unwrap().clone();
    for id in created {
        world.tell(
            "version",
            world.handle().object_info(id.clone()).map(|it| it.version),
        );
        world.event(id, NUMBER, vec![Argument::Int(9)]);
    }
    world.flush_server();
    world.read();
}

fn ids_are_reused(told: &Told) {
    let mut world = World::new(told, Setup::default());
    let shape = world.shape.clone();
    let first = world.request(&shape, MAKE, vec![new_id()]);
    world.request(&first, END, vec![]);
    let second = world.request(&shape, MAKE, vec![new_id()]);
    world.turn();
    let third = world.request(&shape, MAKE, vec![new_id()]);
    world.say(format!("first {first}, second {second}, third {third}"));
    world.say(format!(
        "equal {} {} {}",
        first == second,
        first == third,
        first == first.clone()
    ));
    world.tell("old id known", world.client().info(first.clone()).is_ok());
    world.request(&first, NUMBER, vec![Argument::Int(1)]);
    world.turn();
    // The server's numbers.
    let old = world.create(&SHAPE, 3);
    world.event(world.bound(), MAKE, vec![Argument::NewId(old.clone())]);
    world.event(old.clone(), END, vec![]);
    world.flush_server();
    world.read();
    let new = world.create(&SHAPE, 3);
    world.say(format!("old {old}, new {new}, equal {}", old == new));
    world.tell(
        "old id known",
        world.handle().object_info(old.clone()).is_ok(),
    );
    world.event(old, NUMBER, vec![Argument::Int(2)]);
}

fn object_arguments(told: &Told) {
    let mut world = World::new(told, Setup::default());
    let shape = world.shape.clone();
    let child = world.request(&shape, MAKE, vec![new_id()]);
    for object in [child.clone(), shape.clone(), client::ObjectId::null()] {
        world.request(
            &shape,
            WRITE,
            vec![text("object"), Argument::Object(object)],
        );
    }
    world.turn();
    let handle = world.handle();
    let of_server = handle
        .object_for_protocol_id(world.id.clone(), &SHAPE, child.protocol_id())
        .unwrap();
    for object in [of_server, world.bound(), server::ObjectId::null()] {
        world.event(
            world.bound(),
            WRITE,
            vec![text("object"), Argument::Object(object)],
        );
    }
    world.flush_server();
    world.read();
}

fn all_arguments(told: &Told) {
    let mut world = World::new(told, Setup::default());
    let (shape, sent) = (world.shape.clone(), file(77));
    let raw = std::os::fd::AsRawFd::as_raw_fd(&sent);
    for count in [0, 1, 2, 3, 4, 5] {
        let name = "a".repeat(count);
        let all = vec![
            Argument::Uint(u32::MAX),
            Argument::Int(i32::MIN),
            Argument::Fixed(-1),
            text(&name),
            Argument::Array(Box::new(vec![b'a'; count])),
            Argument::Object(shape.clone()),
            Argument::Fd(raw),
        ];
        world.request(&shape, ALL, all);
        world.turn();
        let all = vec![
            Argument::Uint(0),
            Argument::Int(i32::MAX),
            Argument::Fixed(i32::MIN),
            text(&name),
            Argument::Array(Box::new(vec![b'a'; count])),
            Argument::Object(world.bound()),
            Argument::Fd(raw),
        ];
        world.event(world.bound(), ALL, all);
        world.flush_server();
        world.read();
    }
}

fn statics_of_one_name(told: &Told) {
    let mut world = World::new(told, Setup::default());
    let is = |id: &server::ObjectId, interface| std::ptr::eq(id.interface(), interface);
    world.tell(
        "bound has its static",
        std::ptr::eq(world.shape.interface(), &SHAPE),
    );
    world.tell("on the server, too", is(&world.bound(), &SHAPE));
    let other = world.create(&SHAPE_AGAIN, 4);
    world.tell("the other static", is(&other, &SHAPE_AGAIN));
    world.tell(
        "version",
        world.handle().object_info(other.clone()).unwrap().version,
    );
    world.tell("interface's version", other.interface().version);
    world.event(world.bound(), MAKE, vec![Argument::NewId(other.clone())]);
    world.event(other, NUMBER, vec![Argument::Int(3)]);
    world.flush_server();
    world.read();
    // A bind with another static of the name.
    let data = Arc::new(ClientObject::new(told, "second"));
    let second = world.bind(1, "shape", 3, &SHAPE_AGAIN, data).unwrap();
    world.tell(
        "bound has the other static",
        std::ptr::eq(second.interface(), &SHAPE_AGAIN),
    );
    world.turn();
    world.request(&second, NUMBER, vec![Argument::Int(4)]);
    let child = world.request(&second, MAKE, vec![new_id()]);
    world.tell(
        "child has the first",
        std::ptr::eq(child.interface(), &SHAPE),
    );
    world.turn();
}

fn find_by_number(told: &Told) {
    let world = World::new(told, Setup::default());
    let (handle, id) = (world.handle(), world.id.clone());
    let find = |interface, number| {
        handle
            .object_for_protocol_id(id.clone(), interface, number)
            .map(|it| it.to_string())
    };
    let number = world.shape.protocol_id();
    world.tell("found", find(&SHAPE, number));
    world.tell("by another static", find(&SHAPE_AGAIN, number));
    world.tell("by another interface", find(&STRANGER, number));
    world.tell("another number", find(&SHAPE, 99));
    world.tell("null", find(&SHAPE, 0));
    world.tell(
        "equal",
        handle
            .object_for_protocol_id(id, &SHAPE, number)
            .map(|it| it == world.bound()),
    );
}

fn ids_as_text(told: &Told) {
    let world = World::new(told, Setup::default());
    let client = world.client();
    world.say(format!("{} {:?}", client.display_id(), client.display_id()));
    world.say(format!("{} {:?}", world.shape, world.shape));
    world.say(format!("{} {:?}", world.bound(), world.bound()));
    world.say(format!(
        "{} {:?}",
        client::ObjectId::null(),
        client::ObjectId::null()
    ));
    world.say(format!(
        "{} {:?}",
        server::ObjectId::null(),
        server::ObjectId::null()
    ));
    world.say(format!("{:?}", world.id));
    world.say(format!("{:?}", world.global));
    world.tell(
        "null",
        (
            world.shape.is_null(),
            client::ObjectId::null().is_null(),
            server::ObjectId::null().is_null(),
        ),
    );
    world.tell(
        "numbers",
        (
            world.shape.protocol_id(),
            world.bound().protocol_id(),
            client::ObjectId::null().protocol_id(),
        ),
    );
    let interface = client::ObjectId::null().interface();
    world.tell("interface of null", (interface.name, interface.version));
}

fn sync(told: &Told) {
    let mut world = World::new(told, Setup::default());
    let display = world.client().display_id();
    for _ in 0..3 {
        world.request(&display, 0, vec![new_id()]);
    }
    world.turn();
    world.request(&display, 0, vec![new_id()]);
    world.turn();
}

fn order_of_many(told: &Told) {
    let mut world = World::new(told, Setup::default());
    let shape = world.shape.clone();
    let children: Vec<_> = (0..5)
        .map(|_| world.request(&shape, MAKE, vec![new_id()]))
        .collect();
    for (number, child) in children.iter().enumerate() {
        world.request(child, NUMBER, vec![Argument::Int(number as i32)]);
    }
    world.turn();
    world.request(&children[3], END, vec![]);
    world.request(&children[1], END, vec![]);
    world.turn();
    world.client = None;
    world.dispatch();
}
