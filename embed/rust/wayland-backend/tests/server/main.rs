//! The server's side, asked by clients that are no sessions but bytes.

mod peer;
mod program;

use std::ffi::CString;
use std::io::{ErrorKind, Read, Write};
use std::os::fd::OwnedFd;
use std::sync::atomic::{AtomicUsize, Ordering};
use std::sync::{Arc, Mutex};

use peer::{message, Arg, Event, Peer};
use program::{
    bind, made_by, maker, text_of, thing, Global, Object, Program, Server, Told, MAKER, THING,
};
use wayland_backend::message;
use wayland_backend::protocol::{Argument, ArgumentType, Interface, MessageDesc, ProtocolError};
use wayland_backend::server::{
    Backend, ClientData, ClientId, DisconnectReason, Handle, InvalidId, ObjectData, ObjectId,
};

/// The client's object with this number.
fn object(
    server: &Server,
    client: &ClientId,
    interface: &'static Interface,
    number: u32,
) -> ObjectId {
    server
        .handle()
        .object_for_protocol_id(client.clone(), interface, number)
        .unwrap()
}

fn plain_server() -> Server {
    Server::with_maker(|| Object::plain("maker"))
}

// ---- Ids, objects, callbacks

#[test]
fn a_client_is_told_of_globals_and_binds_one() {
    let mut server = plain_server();
    let (mut peer, client, told) = server.connect();
    assert_eq!(told.take(), ["initialized"]);
    peer.send(1, 1, &[Arg::Word(2)]);
    bind(&peer, 1, 3);
    assert_eq!(server.round(), 2);
    let events = peer.events();
    assert_eq!(events.len(), 1);
    assert_eq!(
        (events[0].object, events[0].opcode, events[0].word(0)),
        (2, 0, 1)
    );
    assert_eq!((events[0].text(4), events[0].word(16)), ("maker".into(), 3));
    assert_eq!(server.program.take_log(), ["bind maker@3[0]"]);
    let id = object(&server, &client, &MAKER, 3);
    let info = server.handle().object_info(id.clone()).unwrap();
    assert_eq!(
        (info.id, info.interface.name, info.version),
        (3, "maker", 3)
    );
    assert_eq!(server.handle().get_client(id.clone()), Ok(client));
    assert!(std::ptr::eq(id.interface(), &MAKER));
    assert_eq!(format!("{id} {id:?}"), "maker@3[0] ObjectId(maker@3[0], 2)");
}

#[test]
fn requests_and_ends_come_in_their_order() {
    let mut server = plain_server();
    let (mut peer, _, _) = server.connect_and_bind();
    peer.send(3, maker::MAKE, &[Arg::Word(4)]);
    peer.send(3, maker::MAKE, &[Arg::Word(5)]);
    peer.send(4, thing::DESTROY, &[]);
    peer.send(3, maker::DESTROY, &[]);
    peer.send(5, thing::DESTROY, &[]);
    assert_eq!(server.round(), 5);
    assert_eq!(
        server.program.take_log(),
        [
            "make maker@3",
            "make maker@3",
            "destroy child@4",
            "gone child@4",
            "destroy maker@3",
            "gone maker@3",
            "destroy child@5",
            "gone child@5",
        ]
    );
    let freed: Vec<u32> = peer.events().iter().map(|event| event.word(0)).collect();
    assert_eq!(freed, [4, 3, 5]);
}

#[test]
fn arguments_arrive_as_they_were_sent() {
    let got = Arc::new(Mutex::new(Vec::new()));
    let kept = got.clone();
    let mut server = Server::with_maker(move || {
        let kept = kept.clone();
        Object::handling("maker", move |_, _, _, message| {
            let made = made_by(&message);
            kept.lock().unwrap().push(message.args);
            made.map(|_| Object::plain("child"))
        })
    });
    let (peer, client, _) = server.connect_and_bind();
    peer.send(3, maker::MAKE, &[Arg::Word(4)]);
    let numbers = [Arg::Word(384), Arg::Word(-7i32 as u32), Arg::Word(u32::MAX)];
    let [a, b, c] = numbers;
    peer.send(
        3,
        maker::SAY,
        &[
            Arg::Text("grüße"),
            Arg::Word(4),
            Arg::Bytes(&[1, 0, 3]),
            a,
            b,
            c,
        ],
    );
    let [a, b, c] = [Arg::Word(0), Arg::Word(0), Arg::Word(0)];
    peer.send(
        3,
        maker::SAY,
        &[Arg::Null, Arg::Word(0), Arg::Bytes(&[]), a, b, c],
    );
    server.round();
    let child = object(&server, &client, &THING, 4);
    let got = got.lock().unwrap();
    let text = |text: &str| Argument::Str(Some(Box::new(CString::new(text).unwrap())));
    assert_eq!(got[0][..], [Argument::NewId(child.clone())]);
    assert_eq!(
        got[1][..],
        [
            text("grüße"),
            Argument::Object(child),
            Argument::Array(Box::new(vec![1, 0, 3])),
            Argument::Fixed(384),
            Argument::Int(-7),
            Argument::Uint(u32::MAX),
        ]
    );
    assert!(
        matches!(&got[2][..2], [Argument::Str(None), Argument::Object(null)] if null.is_null())
    );
}

#[test]
fn events_arrive_as_they_were_sent() {
    let mut server = plain_server();
    let (mut peer, client, _) = server.connect_and_bind();
    let handle = server.handle();
    let id = object(&server, &client, &MAKER, 3);
    let child = handle
        .create_object::<Program>(client.clone(), &THING, 2, Object::plain("child"))
        .unwrap();
    assert_eq!(child.protocol_id(), 0xFF00_0000);
    let made = message!(id.clone(), maker::MADE, [Argument::NewId(child.clone())]);
    handle.send_event(made).unwrap();
    let said = message!(
        id,
        maker::SAID,
        [
            Argument::Str(Some(Box::new(CString::new("so").unwrap()))),
            Argument::Object(child),
            Argument::Array(Box::new(vec![9])),
            Argument::Fixed(-1),
            Argument::Int(-2),
            Argument::Uint(3),
        ]
    );
    handle.send_event(said).unwrap();
    server.backend.flush(Some(client)).unwrap();
    let sent = [
        message(3, maker::MADE, &[Arg::Word(0xFF00_0000)]),
        message(
            3,
            maker::SAID,
            &[
                Arg::Text("so"),
                Arg::Word(0xFF00_0000),
                Arg::Bytes(&[9]),
                Arg::Word(u32::MAX),
                Arg::Word(-2i32 as u32),
                Arg::Word(3),
            ],
        ),
    ]
    .concat();
    let mut came = vec![0; sent.len()];
    peer.stream.read_exact(&mut came).unwrap();
    assert_eq!(came, sent);
    assert_eq!(peer.events(), []);
}

#[test]
fn a_destructor_event_ends_its_sender() {
    let mut server = plain_server();
    let (mut peer, client, _) = server.connect_and_bind();
    let id = object(&server, &client, &MAKER, 3);
    server
        .handle()
        .send_event(message!(id.clone(), maker::OVER, []))
        .unwrap();
    assert_eq!(server.handle().object_info(id).unwrap_err(), InvalidId);
    peer.send(1, 0, &[Arg::Word(4)]);
    server.round();
    assert_eq!(server.program.take_log(), ["gone maker@3"]);
    let events = peer.events();
    let what: Vec<_> = events
        .iter()
        .map(|event| (event.object, event.opcode))
        .collect();
    assert_eq!(what, [(3, maker::OVER), (1, 1), (4, 0), (1, 1)]);
}

#[test]
fn an_object_is_there_while_its_end_is_told_after_a_destructor() {
    struct Asks;
    impl ObjectData<Program> for Asks {
        fn request(
            self: Arc<Self>,
            _: &Handle,
            _: &mut Program,
            _: ClientId,
            _: wayland_backend::protocol::Message<ObjectId, OwnedFd>,
        ) -> Option<Arc<dyn ObjectData<Program>>> {
            None
        }

        fn destroyed(
            self: Arc<Self>,
            handle: &Handle,
            program: &mut Program,
            _: ClientId,
            object: ObjectId,
        ) {
            program.log.push(format!(
                "{:?}",
                handle.object_info(object).map(|info| info.version)
            ));
        }
    }
    let mut server = Server::with_maker(|| Arc::new(Asks));
    let (peer, client, _) = server.connect_and_bind();
    peer.send(3, maker::DESTROY, &[]);
    bind(&peer, 1, 4);
    server.round();
    assert_eq!(server.program.take_log()[0], "Ok(3)");
    server
        .handle()
        .kill_client(client, DisconnectReason::ConnectionClosed);
    peer.send(1, 0, &[Arg::Word(5)]);
    server.round();
    assert_eq!(server.program.take_log(), ["Err(InvalidId)"]);
}

#[test]
fn data_can_be_asked_for_and_changed() {
    let mut server = plain_server();
    let (peer, client, _) = server.connect_and_bind();
    let handle = server.handle();
    let id = object(&server, &client, &MAKER, 3);
    let old = handle.get_object_data::<Program>(id.clone()).unwrap();
    assert_eq!(old.downcast_ref::<Object>().unwrap().name, "maker");
    handle
        .set_object_data::<Program>(id.clone(), Object::plain("other"))
        .unwrap();
    let any = handle.get_object_data_any(id.clone()).unwrap();
    assert_eq!(any.downcast_ref::<Object>().unwrap().name, "other");
    assert_eq!(Arc::strong_count(&old), 1);
    peer.send(3, maker::DESTROY, &[]);
    server.round();
    assert_eq!(
        server.program.take_log(),
        ["destroy other@3", "gone other@3"]
    );
    assert!(handle.get_object_data::<Program>(id.clone()).is_err());
    assert!(handle
        .set_object_data::<Program>(id, Object::plain("late"))
        .is_err());
    assert!(handle.get_object_data_any(ObjectId::null()).is_err());
}

#[test]
fn the_display_and_registries_have_data_that_do_nothing() {
    let mut server = plain_server();
    let (_peer, client, _) = server.connect_and_bind();
    let mut numbers = Vec::new();
    let handle = server.handle();
    handle
        .with_all_objects_for(client, |id| {
            numbers.push(id.protocol_id());
            assert!(handle.get_object_data::<Program>(id).is_ok());
        })
        .unwrap();
    assert_eq!(numbers, [1, 2, 3]);
}

#[test]
fn an_object_keeps_the_static_that_it_was_made_with() {
    static OTHER: Interface = Interface {
        name: "thing",
        ..THING_COPY
    };
    const THING_COPY: Interface = Interface {
        name: "thing",
        version: 3,
        requests: &[],
        events: &[],
        c_ptr: None,
    };
    let mut server = plain_server();
    let (peer, client, _) = server.connect_and_bind();
    peer.send(3, maker::MAKE, &[Arg::Word(4)]);
    server.round();
    let handle = server.handle();
    let other = handle
        .create_object::<Program>(client.clone(), &OTHER, 1, Object::plain("other"))
        .unwrap();
    assert!(std::ptr::eq(other.interface(), &OTHER));
    let mut statics = Vec::new();
    handle
        .with_all_objects_for(client.clone(), |id| statics.push(id.interface()))
        .unwrap();
    assert!(std::ptr::eq(statics[3], &THING) && std::ptr::eq(statics[4], &OTHER));
    let info = handle.object_info(other.clone()).unwrap();
    assert!(std::ptr::eq(info.interface, &OTHER));
    let found = handle
        .object_for_protocol_id(client, &THING, other.protocol_id())
        .unwrap();
    assert!(std::ptr::eq(found.interface(), &OTHER));
    assert_eq!(found, other);
}

// ---- What a handler may do

#[test]
fn a_handler_may_call_everything() {
    let mut server = Server::with_maker(|| {
        Object::handling("maker", |handle, program, client, message| {
            let mut handle = handle.clone();
            let me = message.sender_id.clone();
            let child =
                handle.create_object::<Program>(client.clone(), &THING, 1, Object::plain("child"));
            let event = message!(me.clone(), maker::MADE, [Argument::NewId(child.unwrap())]);
            handle.send_event(event).unwrap();
            let global =
                handle.create_global::<Program>(&THING, 1, Global::new(|| Object::plain("thing")));
            handle.global_info(global.clone()).unwrap();
            handle
                .get_global_handler::<Program>(global.clone())
                .unwrap();
            handle.disable_global::<Program>(global.clone());
            handle.remove_global::<Program>(global);
            let (_peer, stream) = Peer::new();
            let told = Arc::new(Told::default());
            let other = handle.insert_client(stream, told.clone()).unwrap();
            handle.kill_client(other, DisconnectReason::ConnectionClosed);
            program.log.extend(told.take());
            let mut count = 0;
            handle.with_all_clients(|id| {
                handle.get_client_data(id.clone()).unwrap();
                handle.get_client_credentials(id).unwrap();
                count += 1;
            });
            program.log.push(format!("{count} clients"));
            let mut inner = handle.clone();
            inner.flush(None).unwrap();
            let made = made_by(&message);
            if let Some(made) = &made {
                assert!(handle.get_object_data::<Program>(made.clone()).is_ok());
                handle
                    .set_object_data::<Program>(made.clone(), Object::plain("early"))
                    .unwrap();
            }
            handle.post_error(me, 7, CString::new("enough").unwrap());
            made.map(|_| Object::plain("late"))
        })
    });
    let (mut peer, client, told) = server.connect_and_bind();
    peer.send(3, maker::MAKE, &[Arg::Word(4)]);
    server.round();
    assert_eq!(
        server.program.take_log(),
        [
            "make maker@3",
            "initialized",
            "closed",
            "1 clients",
            "gone maker@3",
            "gone late@4",
            "gone child@4278190080",
        ]
    );
    assert_eq!(told.take(), ["maker@3: 7 enough"]);
    assert!(server.handle().get_client_data(client).is_err());
    let events = peer.events();
    let last = events.last().unwrap();
    assert_eq!(
        (last.object, last.opcode, last.word(0), last.word(4)),
        (1, 0, 3, 7)
    );
    assert_eq!(last.text(8), "enough");
    assert!(peer.has_ended);
}

#[test]
fn a_handler_that_panics_leaves_a_server_that_can_be_used() {
    let mut server = Server::with_maker(|| {
        Object::handling("maker", |_, _, _, message| match message.opcode {
            maker::POKE => None,
            _ => panic!("as it was meant"),
        })
    });
    let (mut peer, client, _) = server.connect_and_bind();
    peer.send(3, maker::MAKE, &[Arg::Word(4)]);
    assert_eq!(server.panicking_round(), "as it was meant");
    peer.send(3, maker::POKE, &[]);
    server.round();
    peer.send(3, maker::DESTROY, &[]);
    assert_eq!(server.panicking_round(), "as it was meant");
    peer.send(1, 0, &[Arg::Word(5)]);
    server.round();
    let log = server.program.take_log();
    assert_eq!(
        log,
        [
            "make maker@3",
            "poke maker@3",
            "destroy maker@3",
            "gone maker@3"
        ]
    );
    // The object that got no data is there, and its requests panic.
    let child = object(&server, &client, &THING, 4);
    assert!(server.handle().get_object_data::<Program>(child).is_ok());
    peer.send(4, thing::DESTROY, &[]);
    assert!(server
        .panicking_round()
        .starts_with("Received a message on an uninitialized object"));
    assert!(!peer.events().is_empty());
    assert!(!peer.has_ended);
}

#[test]
fn what_came_with_a_request_whose_handler_panics_is_handled() {
    let mut server = Server::with_maker(|| {
        Object::handling("maker", |_, _, _, message| match message.opcode {
            maker::POKE => None,
            _ => panic!("as it was meant"),
        })
    });
    let (first, _, _) = server.connect_and_bind();
    let (second, _, _) = server.connect_and_bind();
    let (third, _, told) = server.connect_and_bind();
    drop(third);
    let poke = || message(3, maker::POKE, &[]);
    let make = || message(3, maker::MAKE, &[Arg::Word(4)]);
    let destroy = || message(3, maker::DESTROY, &[]);
    first.send_bytes(&[poke(), make(), poke(), destroy()].concat(), &[]);
    second.send_bytes(&poke(), &[]);
    let call =
        std::panic::AssertUnwindSafe(|| server.backend.dispatch_all_clients(&mut server.program));
    let panic = std::panic::catch_unwind(call).unwrap_err();
    assert_eq!(panic.downcast_ref(), Some(&"as it was meant"));
    // poll does not tell of it any more.
    let mut log = server.program.take_log();
    log.sort();
    assert_eq!(
        log,
        [
            "destroy maker@3",
            "gone maker@3",
            "gone maker@3",
            "make maker@3",
            "poke maker@3",
            "poke maker@3",
            "poke maker@3",
        ]
    );
    assert_eq!(told.take(), ["closed"]);
    assert_eq!(server.round(), 0);
}

/// Data that panic when they are told, and count that.
struct Panicking(Arc<AtomicUsize>);

impl ClientData for Panicking {
    fn initialized(&self, _: ClientId) {
        self.0.fetch_add(1, Ordering::SeqCst);
        panic!("at the beginning");
    }

    fn disconnected(&self, _: ClientId, _: DisconnectReason) {
        self.0.fetch_add(1, Ordering::SeqCst);
        panic!("at the end");
    }
}

#[test]
fn data_that_panic_when_they_are_told_leave_the_others_told() {
    let mut server = plain_server();
    let count = Arc::new(AtomicUsize::new(0));
    let (mut peers, mut told) = (Vec::new(), Vec::new());
    for _ in 0..2 {
        let (peer, stream) = Peer::new();
        let data = Arc::new(Panicking(count.clone()));
        let mut handle = server.handle();
        assert_eq!(
            panic_of(|| drop(handle.insert_client(stream, data))),
            "at the beginning"
        );
        peers.push(peer);
        let (peer, _, one) = server.connect();
        peers.push(peer);
        told.push(one);
    }
    // They are served all the same.
    peers[0].send(1, 1, &[Arg::Word(2)]);
    assert_eq!(server.round(), 1);
    assert_eq!(peers[0].events().len(), 1);
    drop(peers);
    assert_eq!(server.panicking_round(), "at the end");
    assert_eq!(count.load(Ordering::SeqCst), 4);
    for told in told {
        assert_eq!(told.take(), ["initialized", "closed"]);
    }
    let mut count = 0;
    server.handle().with_all_clients(|_| count += 1);
    assert_eq!(count, 0);
}

#[test]
fn wrong_answers_of_a_handler_panic_and_are_forgiven() {
    let mut server = Server::with_maker(|| {
        Object::handling("maker", |_, _, _, message| {
            made_by(&message)
                .is_none()
                .then(|| Object::plain("nobody's"))
        })
    });
    let (peer, _, _) = server.connect_and_bind();
    peer.send(3, maker::MAKE, &[Arg::Word(4)]);
    assert_eq!(
        server.panicking_round(),
        "Callback creating object thing@4[0] did not provide any object data."
    );
    peer.send(3, maker::POKE, &[]);
    assert_eq!(
        server.panicking_round(),
        "An object data was returned from a callback not creating any object"
    );
    let (_other, client, _) = server.connect_and_bind();
    assert_eq!(object(&server, &client, &MAKER, 3).protocol_id(), 3);
}

#[test]
fn a_killed_client_needs_no_data_for_its_new_object() {
    let mut server = Server::with_maker(|| {
        Object::handling("maker", |handle, _, client, _| {
            handle.kill_client(client.clone(), DisconnectReason::ConnectionClosed);
            None
        })
    });
    let (peer, _, told) = server.connect_and_bind();
    peer.send(3, maker::MAKE, &[Arg::Word(4)]);
    server.round();
    assert_eq!(server.program.take_log(), ["make maker@3", "gone maker@3"]);
    assert_eq!(told.take(), ["closed"]);
}

#[test]
fn an_object_that_its_destructor_destroys_by_hand_is_told_once() {
    let mut server = Server::with_maker(|| {
        Object::handling("maker", |handle, _, _, message| {
            handle
                .destroy_object::<Program>(&message.sender_id)
                .unwrap();
            None
        })
    });
    let (mut peer, _, _) = server.connect_and_bind();
    peer.send(3, maker::DESTROY, &[]);
    server.round();
    assert_eq!(
        server.program.take_log(),
        ["destroy maker@3", "gone maker@3"]
    );
    assert_eq!(peer.events().len(), 1);
}

#[test]
fn data_whose_drop_calls_the_server_do_not_block_it() {
    struct Calls(Handle, ObjectId);
    impl Drop for Calls {
        fn drop(&mut self) {
            let _ = self.0.object_info(self.1.clone());
        }
    }
    impl ObjectData<Program> for Calls {
        fn request(
            self: Arc<Self>,
            _: &Handle,
            _: &mut Program,
            _: ClientId,
            _: wayland_backend::protocol::Message<ObjectId, OwnedFd>,
        ) -> Option<Arc<dyn ObjectData<Program>>> {
            None
        }

        fn destroyed(self: Arc<Self>, _: &Handle, _: &mut Program, _: ClientId, _: ObjectId) {}
    }
    let mut server = plain_server();
    let (peer, client, _) = server.connect_and_bind();
    let handle = server.handle();
    let calls = |id: &ObjectId| Arc::new(Calls(server.backend.handle(), id.clone()));
    let id = object(&server, &client, &MAKER, 3);
    handle
        .set_object_data::<Program>(id.clone(), calls(&id))
        .unwrap();
    handle
        .set_object_data::<Program>(id.clone(), calls(&id))
        .unwrap();
    let gone = client_of_nobody();
    assert!(handle
        .create_object::<Program>(gone, &THING, 1, calls(&id))
        .is_err());
    peer.send(3, maker::DESTROY, &[]);
    server.round();
    assert!(server.handle().object_info(id).is_err());
}

/// The id of a client of another server, which no client of the server at hand has.
fn client_of_nobody() -> ClientId {
    let server = Server::new();
    let clients: Vec<_> = (0..10).map(|_| server.connect().1).collect();
    clients[9].clone()
}

// ---- Ends of clients

#[test]
fn a_client_that_leaves_is_told_once_and_its_objects_after_it() {
    let mut server = plain_server();
    let (peer, client, told) = server.connect_and_bind();
    peer.send(3, maker::MAKE, &[Arg::Word(4)]);
    server.round();
    server.program.take_log();
    peer.send(3, maker::POKE, &[]);
    drop(peer);
    server.round();
    assert_eq!(told.take(), ["closed"]);
    assert_eq!(
        server.program.take_log(),
        ["poke maker@3", "gone maker@3", "gone child@4"]
    );
    let handle = server.handle();
    handle.kill_client(client.clone(), DisconnectReason::ConnectionClosed);
    assert_eq!(told.take(), [""; 0]);
    assert!(handle.get_client_data(client.clone()).is_err());
    assert!(handle.get_client_credentials(client.clone()).is_err());
    assert!(handle.with_all_objects_for(client.clone(), |_| ()).is_err());
    let error = server
        .backend
        .dispatch_single_client(&mut server.program, client)
        .unwrap_err();
    assert_eq!(error.kind(), ErrorKind::InvalidInput);
}

#[test]
fn a_client_is_killed_once_and_for_the_reason_that_is_given() {
    let mut server = plain_server();
    let (mut peer, client, told) = server.connect_and_bind();
    let error = ProtocolError {
        code: 4,
        object_id: 9,
        object_interface: "nothing".into(),
        message: "because".into(),
    };
    let handle = server.handle();
    handle.kill_client(client.clone(), DisconnectReason::ProtocolError(error));
    handle.kill_client(client.clone(), DisconnectReason::ConnectionClosed);
    assert_eq!(told.take(), ["nothing@9: 4 because"]);
    let mut clients = 0;
    handle.with_all_clients(|_| clients += 1);
    assert_eq!(clients, 0);
    // It is there until the next dispatch that reads something.
    let id = handle
        .object_for_protocol_id(client.clone(), &MAKER, 3)
        .unwrap();
    handle.send_event(message!(id, maker::OVER, [])).unwrap();
    let error = server
        .backend
        .dispatch_single_client(&mut server.program, client)
        .unwrap_err();
    assert_eq!(
        error.raw_os_error(),
        Some(rustix::io::Errno::PIPE.raw_os_error())
    );
    assert_eq!(server.program.take_log(), ["gone maker@3"]);
    assert_eq!(peer.events(), []);
    assert!(peer.has_ended);
}

#[test]
fn a_client_that_breaks_the_protocol_is_told_why() {
    let mut server = plain_server();
    let (mut peer, _, told) = server.connect_and_bind();
    let (good, _, _) = server.connect_and_bind();
    peer.send(3, maker::MAKE, &[Arg::Word(3)]);
    good.send(3, maker::POKE, &[]);
    server.round();
    assert_eq!(server.program.take_log(), ["poke maker@3", "gone maker@3"]);
    assert_eq!(told.take(), ["wl_display@1: 0 Invalid new_id: 3."]);
    let events = peer.events();
    assert_eq!((events[0].object, events[0].opcode), (1, 0));
    assert_eq!(events[0].text(8), "Invalid new_id: 3.");
    assert!(peer.has_ended);
}

#[test]
fn garbage_of_one_client_does_not_harm_another() {
    let mut server = plain_server();
    let (peer, bad, told) = server.connect_and_bind();
    let (good, _, _) = server.connect_and_bind();
    peer.send_bytes(&[0xA5; 4093], &[]);
    good.send(3, maker::POKE, &[]);
    let error = server
        .backend
        .dispatch_single_client(&mut server.program, bad)
        .unwrap_err();
    assert_eq!(
        error.raw_os_error(),
        Some(rustix::io::Errno::PROTO.raw_os_error())
    );
    assert_eq!(told.take(), ["closed"]);
    server.program.take_log();
    assert_eq!(server.round(), 1);
    assert_eq!(server.program.take_log(), ["poke maker@3"]);
}

// ---- Dispatching

#[test]
fn dispatching_says_how_many_requests_were_read() {
    let mut server = plain_server();
    let (peer, client, _) = server.connect_and_bind();
    let dispatch = |server: &mut Server| {
        server
            .backend
            .dispatch_single_client(&mut server.program, client.clone())
    };
    assert_eq!(
        dispatch(&mut server).unwrap_err().kind(),
        ErrorKind::WouldBlock
    );
    let sync = message(1, 0, &[Arg::Word(4)]);
    let poke = message(3, maker::POKE, &[]);
    peer.send_bytes(&[&sync[..], &poke, &poke[..5]].concat(), &[]);
    assert_eq!(dispatch(&mut server).unwrap(), 2);
    assert_eq!(
        dispatch(&mut server).unwrap_err().kind(),
        ErrorKind::WouldBlock
    );
    peer.send_bytes(&poke[5..], &[]);
    assert_eq!(dispatch(&mut server).unwrap(), 1);
    assert_eq!(server.program.take_log(), ["poke maker@3"; 2]);
}

#[test]
fn requests_of_a_client_that_its_handler_kills_do_not_count() {
    let mut server = Server::with_maker(|| {
        Object::handling("maker", |handle, _, client, _| {
            handle.kill_client(client.clone(), DisconnectReason::ConnectionClosed);
            None
        })
    });
    let (peer, _, told) = server.connect_and_bind();
    peer.send(3, maker::POKE, &[]);
    assert_eq!(server.round(), 0);
    assert_eq!(told.take(), ["closed"]);
    assert_eq!(server.program.take_log(), ["poke maker@3", "gone maker@3"]);
}

#[test]
fn the_descriptor_can_be_read_when_a_client_has_sent_something() {
    use rustix::event::{poll, PollFd, PollFlags};
    let mut server = plain_server();
    let (peer, _, _) = server.connect_and_bind();
    let is_ready = |server: &Server| {
        let fd = server.backend.poll_fd();
        poll(&mut [PollFd::new(&fd, PollFlags::IN)], 0).unwrap() > 0
    };
    assert!(!is_ready(&server));
    peer.send(3, maker::POKE, &[]);
    assert!(is_ready(&server));
    assert_eq!(server.round(), 1);
    assert!(!is_ready(&server));
    drop(peer);
    assert!(is_ready(&server));
    assert_eq!(server.round(), 0);
    assert!(!is_ready(&server));
}

#[test]
fn a_thousand_clients_are_served() {
    let mut server = plain_server();
    let mut peers: Vec<_> = (0..200).map(|_| server.connect_and_bind()).collect();
    for (peer, _, _) in &peers {
        peer.send(3, maker::MAKE, &[Arg::Word(4)]);
    }
    assert_eq!(server.round(), 200);
    peers.truncate(100);
    server.round();
    let log = server.program.take_log();
    let gone = log.iter().filter(|line| line.starts_with("gone")).count();
    assert_eq!(gone, 200);
    for (peer, _, _) in &mut peers {
        peer.send(4, thing::DESTROY, &[]);
    }
    assert_eq!(server.round(), 100);
    for (peer, _, _) in &mut peers {
        assert_eq!(peer.events().len(), 1);
    }
}

#[test]
fn all_clients_are_answered_in_one_round_also_if_no_handler_is_called() {
    let mut server = plain_server();
    let mut peers: Vec<Peer> = (0..100).map(|_| server.connect().0).collect();
    for peer in &peers {
        peer.send(1, 0, &[Arg::Word(2)]);
    }
    assert_eq!(server.round(), 100);
    for peer in &mut peers {
        assert_eq!(peer.events().len(), 2);
    }
    assert_eq!(server.round(), 0);
}

#[test]
fn the_end_behind_a_request_without_a_handler_is_told_in_the_same_round() {
    for end in [std::net::Shutdown::Write, std::net::Shutdown::Both] {
        let mut server = plain_server();
        let (peer, _, told) = server.connect_and_bind();
        peer.send(1, 0, &[Arg::Word(4)]);
        peer.stream.shutdown(end).unwrap();
        server.round();
        assert_eq!(told.take(), ["closed"]);
        assert_eq!(server.program.take_log(), ["gone maker@3"]);
    }
}

#[test]
fn what_a_handler_sends_as_a_client_is_read_in_the_same_round() {
    let other: Arc<Mutex<Option<std::os::unix::net::UnixStream>>> = Arc::default();
    let sender = other.clone();
    let mut server = Server::with_maker(move || {
        let sender = sender.clone();
        Object::handling("maker", move |_, _, _, _| {
            if let Some(mut other) = sender.lock().unwrap().take() {
                other.write_all(&message(3, maker::POKE, &[])).unwrap();
            }
            None
        })
    });
    let (peer, _, _) = server.connect_and_bind();
    let (sent, _, _) = server.connect_and_bind();
    *other.lock().unwrap() = Some(sent.stream.try_clone().unwrap());
    peer.send(3, maker::POKE, &[]);
    assert_eq!(server.round(), 2);
}

#[test]
fn a_client_that_sends_without_end_keeps_nobody_waiting() {
    let count = Arc::new(AtomicUsize::new(0));
    let counted = count.clone();
    let mut server = Server::with_maker(move || {
        let counted = counted.clone();
        Object::handling("maker", move |_, program, _, _| {
            counted.fetch_add(1, Ordering::Relaxed);
            program.log.clear();
            None
        })
    });
    let (bad, _, _) = server.connect_and_bind();
    let (mut good, _, _) = server.connect_and_bind();
    let stream = bad.stream.try_clone().unwrap();
    let sender = std::thread::spawn(move || {
        let bytes = message(3, maker::POKE, &[]).repeat(1000);
        while (&stream).write_all(&bytes).is_ok() {}
    });
    for _ in 0..3 {
        let before = count.load(Ordering::Relaxed);
        while count.load(Ordering::Relaxed) < before + 10_000 {
            good.send(1, 0, &[Arg::Word(4)]);
            server.round();
            assert_eq!(good.events().len(), 2);
        }
    }
    bad.stream.shutdown(std::net::Shutdown::Both).unwrap();
    sender.join().unwrap();
}

// ---- Globals

#[test]
fn globals_come_and_go() {
    let mut server = plain_server();
    let (mut peer, client, _) = server.connect_and_bind();
    let handle = server.handle();
    let global = handle.create_global::<Program>(&MAKER, 2, Global::new(|| Object::plain("two")));
    let info = handle.global_info(global.clone()).unwrap();
    assert_eq!(
        (info.interface.name, info.version, info.disabled),
        ("maker", 2, false)
    );
    handle.disable_global::<Program>(global.clone());
    handle.disable_global::<Program>(global.clone());
    assert!(handle.global_info(global.clone()).unwrap().disabled);
    // A bind may be on its way when a global is disabled.
    peer.send(
        2,
        0,
        &[Arg::Word(2), Arg::Text("maker"), Arg::Word(2), Arg::Word(4)],
    );
    server.round();
    assert_eq!(server.program.take_log(), ["bind maker@4[0]"]);
    let handler = handle
        .get_global_handler::<Program>(global.clone())
        .unwrap();
    handle.remove_global::<Program>(global.clone());
    handle.remove_global::<Program>(global.clone());
    assert_eq!(Arc::strong_count(&handler), 1);
    assert!(handle.global_info(global.clone()).is_err());
    assert!(handle.get_global_handler::<Program>(global).is_err());
    let events = peer.events();
    let what: Vec<_> = events
        .iter()
        .map(|event| (event.opcode, event.word(0)))
        .collect();
    assert_eq!(what, [(0, 2), (1, 2)]);
    peer.send(
        2,
        0,
        &[Arg::Word(2), Arg::Text("maker"), Arg::Word(2), Arg::Word(5)],
    );
    server.round();
    assert_eq!(
        peer.events()[0].text(8),
        "Invalid binding of maker version 2 for global 2."
    );
    assert!(handle.get_client_data(client).is_err());
}

/// The names of the globals of which the events tell.
fn announced(events: &[Event]) -> Vec<u32> {
    events
        .iter()
        .filter(|it| (it.object, it.opcode) == (2, 0))
        .map(|it| it.word(0))
        .collect()
}

#[test]
fn a_client_sees_what_its_handlers_let_it_see() {
    struct Trusted;
    impl ClientData for Trusted {}
    let is_trusted = |data: &Arc<dyn ClientData>| data.downcast_ref::<Trusted>().is_some();
    let mut server = plain_server();
    let handle = server.handle();
    let asked = Arc::new(Mutex::new(Vec::new()));
    let secret = |name: u32| {
        let asked = asked.clone();
        Global::seen_by(move |client, data, _| {
            asked.lock().unwrap().push((name, client.clone()));
            is_trusted(data)
        })
    };
    handle.create_global::<Program>(&MAKER, 3, secret(2));
    let (mut plain, plain_id, told) = server.connect();
    let (mut trusted, stream) = Peer::new();
    let trusted_id = server
        .handle()
        .insert_client(stream, Arc::new(Trusted))
        .unwrap();
    for peer in [&plain, &trusted] {
        peer.send(1, 1, &[Arg::Word(2)]);
    }
    server.round();
    assert_eq!(announced(&plain.events()), [1]);
    assert_eq!(announced(&trusted.events()), [1, 2]);
    handle.create_global::<Program>(&MAKER, 3, secret(3));
    server.round();
    assert_eq!(announced(&plain.events()), [0; 0]);
    assert_eq!(announced(&trusted.events()), [3]);
    for name in [2, 3] {
        let ids = [plain_id.clone(), trusted_id.clone()];
        let of_name = |it: &&(u32, ClientId)| it.0 == name;
        let clients: Vec<_> = asked
            .lock()
            .unwrap()
            .iter()
            .filter(of_name)
            .map(|it| it.1.clone())
            .collect();
        assert!(
            ids.iter().all(|id| clients.contains(id)),
            "{name}: {clients:?}"
        );
    }
    bind(&trusted, 3, 3);
    bind(&plain, 3, 3);
    server.round();
    assert_eq!(server.program.take_log(), ["bind maker@3[1]"]);
    let text = "Invalid binding of maker version 3 for global 3.";
    assert_eq!(plain.events()[0].text(8), text);
    assert_eq!(told.take()[1], format!("wl_display@1: 0 {text}"));
}

#[test]
fn a_handler_that_is_asked_who_sees_its_global_may_call_everything() {
    let mut server = plain_server();
    let handle = server.handle();
    let (weak, rounds) = (handle.downgrade(), Arc::new(Mutex::new(0)));
    let nested = Global::seen_by(move |_, _, _| {
        let handle = weak.upgrade().unwrap();
        let is_first = std::mem::replace(&mut *rounds.lock().unwrap(), 1) == 0;
        if is_first {
            // Another client and another global come in between.
            let (_, stream) = Peer::new();
            handle.clone().insert_client(stream, Arc::new(())).unwrap();
            handle.create_global::<Program>(&MAKER, 3, Global::new(|| Object::plain("in between")));
        }
        true
    });
    handle.create_global::<Program>(&MAKER, 3, nested);
    let (mut peer, client, _) = server.connect();
    peer.send(1, 1, &[Arg::Word(2)]);
    server.round();
    assert_eq!(announced(&peer.events()), [1, 2, 3]);
    assert_eq!(handle.get_client_data(client).map(|_| ()), Ok(()));
}

#[test]
#[should_panic(expected = "maximum supported version is 3")]
fn a_global_of_too_high_a_version_is_refused() {
    let server = Server::new();
    server
        .handle()
        .create_global::<Program>(&MAKER, 4, Global::new(|| Object::plain("maker")));
}

// ---- Descriptors that are none, slow clients, large messages

#[test]
fn a_bad_descriptor_kills_the_client() {
    let mut server = plain_server();
    let (_peer, client, told) = server.connect_and_bind();
    let id = object(&server, &client, &MAKER, 3);
    let closed = 1_000_000; // above what a process may open
    server
        .handle()
        .send_event(message!(id, maker::GIVEN, [Argument::Fd(closed)]))
        .unwrap();
    assert_eq!(told.take(), ["closed"]);
}

#[test]
fn a_bad_descriptor_of_an_event_that_cannot_be_sent_kills_nobody() {
    let mut server = plain_server();
    let (peer, client, told) = server.connect_and_bind();
    let id = object(&server, &client, &MAKER, 3);
    let child = server
        .handle()
        .create_object::<Program>(client.clone(), &MAKER, 1, Object::plain("child"))
        .unwrap();
    let bad = || Argument::Fd(1_000_000);
    let handle = server.handle();
    let send = |id: &ObjectId, opcode, args: &[Argument<ObjectId, i32>]| {
        handle.send_event(wayland_backend::protocol::Message {
            sender_id: id.clone(),
            opcode,
            args: args.into(),
        })
    };
    handle.destroy_object::<Program>(&child).unwrap();
    assert_eq!(send(&child, maker::GIVEN, &[bad()]), Err(InvalidId));
    let text = panic_of(|| drop(send(&id, 99, &[bad()])));
    assert_eq!(text, "Unknown opcode 99 for object maker@3[0].");
    let text = panic_of(|| drop(send(&id, maker::GIVEN, &[bad(), bad()])));
    assert!(text.starts_with("Unexpected signature"), "{text}");
    let text = panic_of(|| drop(send(&id, maker::OVER, &[bad()])));
    assert!(text.starts_with("Unexpected signature"), "{text}");
    assert_eq!(told.take(), [""; 0]);
    assert_eq!(send(&id, maker::GIVEN, &[bad()]), Ok(()));
    assert_eq!(told.take(), ["closed"]);
    // One that was killed is sent nothing, and one that is gone is not known.
    assert_eq!(send(&id, maker::GIVEN, &[bad()]), Ok(()));
    drop(peer);
    server.round();
    assert_eq!(send(&id, maker::GIVEN, &[bad()]), Err(InvalidId));
    assert_eq!(told.take(), [""; 0]);
}

#[test]
fn a_client_that_reads_nothing_is_killed_in_the_end() {
    let mut server = plain_server();
    let (peer, client, told) = server.connect_and_bind();
    let id = object(&server, &client, &MAKER, 3);
    let child = server
        .handle()
        .create_object::<Program>(client.clone(), &THING, 1, Object::plain("child"))
        .unwrap();
    server
        .handle()
        .send_event(message!(id, maker::MADE, [Argument::NewId(child.clone())]))
        .unwrap();
    let mut sent = 0;
    while told.0.lock().unwrap().is_empty() {
        assert!(sent < 1_000_000, "the limit is not kept");
        let event = message!(child.clone(), thing::TOUCHED, [Argument::Uint(sent)]);
        server.handle().send_event(event).unwrap();
        sent += 1;
        if sent % 100 == 0 {
            let _ = server.backend.flush(Some(client.clone()));
        }
    }
    assert!(sent > 4096 / 12, "the client is killed too early");
    assert_eq!(told.take(), ["closed"]);
    drop(peer);
}

#[test]
fn what_a_full_socket_does_not_take_is_sent_later() {
    let mut server = plain_server();
    let (mut peer, client, _) = server.connect_and_bind();
    let id = object(&server, &client, &MAKER, 3);
    let child = server
        .handle()
        .create_object::<Program>(client.clone(), &THING, 1, Object::plain("child"))
        .unwrap();
    server
        .handle()
        .send_event(message!(id, maker::MADE, [Argument::NewId(child.clone())]))
        .unwrap();
    let mut sent = 0;
    loop {
        for _ in 0..1000 {
            let event = message!(child.clone(), thing::TOUCHED, [Argument::Uint(sent)]);
            server.handle().send_event(event).unwrap();
            sent += 1;
        }
        match server.backend.flush(Some(client.clone())) {
            Ok(()) => {}
            Err(error) => {
                assert_eq!(error.kind(), ErrorKind::WouldBlock);
                break;
            }
        }
    }
    let mut got = Vec::new();
    for _ in 0..10_000 {
        got.extend(peer.events());
        if got.len() > sent as usize {
            break;
        }
        server.backend.flush(None).unwrap();
    }
    let numbers: Vec<u32> = got[1..].iter().map(|event| event.word(0)).collect();
    assert_eq!(numbers, (0..sent).collect::<Vec<_>>());
}

#[test]
fn a_burst_is_read_whole_after_a_client_left_much_behind() {
    let mut server = plain_server();
    let (slow, client, _) = server.connect_and_bind();
    let child = {
        let id = object(&server, &client, &MAKER, 3);
        let child = server
            .handle()
            .create_object::<Program>(client.clone(), &THING, 1, Object::plain("child"))
            .unwrap();
        let made = message!(id, maker::MADE, [Argument::NewId(child.clone())]);
        server.handle().send_event(made).unwrap();
        child
    };
    // Its socket is full, and more waits for it than one receive brings.
    while server.backend.flush(Some(client.clone())).is_ok() {
        for number in 0..1000 {
            let event = message!(child.clone(), thing::TOUCHED, [Argument::Uint(number)]);
            server.handle().send_event(event).unwrap();
        }
    }
    for number in 0..8000 {
        let event = message!(child.clone(), thing::TOUCHED, [Argument::Uint(number)]);
        server.handle().send_event(event).unwrap();
    }
    let _ = server.backend.flush(None);
    drop(slow);
    server.round();
    assert!(server.handle().get_client_data(client).is_err());
    // Bursts of about as much as a session reads at once.
    let (mut peer, _, _) = server.connect_and_bind();
    for bytes in [65_528usize, 65_536, 65_544, 67_000, 69_632, 69_640, 140_000] {
        server.program.take_log();
        let poke = peer::message(3, maker::POKE, &[]);
        let count = bytes / poke.len();
        peer.send_bytes(&poke.repeat(count), &[]);
        server.round();
        assert_eq!(server.program.take_log().len(), count, "{bytes} bytes");
    }
    assert!(peer.events().is_empty());
}

#[test]
fn messages_of_up_to_65532_bytes_arrive() {
    let mut server = Server::with_maker(|| {
        Object::handling("maker", |_, program, _, message| {
            if let Argument::Array(bytes) = &message.args[2] {
                program.log.push(format!(
                    "{} bytes, the last {}",
                    bytes.len(),
                    bytes[bytes.len() - 1]
                ));
            }
            None
        })
    });
    let (mut peer, client, _) = server.connect_and_bind();
    let id = object(&server, &client, &MAKER, 3);
    for size in [4000, 4096, 8192, 20_000, 65_500] {
        let bytes: Vec<u8> = (0..size).map(|at| (at % 251) as u8).collect();
        let last = bytes[size - 1];
        let zero = || Arg::Word(0);
        let args = [
            Arg::Null,
            zero(),
            Arg::Bytes(&bytes),
            zero(),
            zero(),
            zero(),
        ];
        let sent = message(3, maker::SAY, &args);
        peer.send_bytes(&sent, &[]);
        server.round();
        let log = server.program.take_log();
        assert_eq!(log[1], format!("{size} bytes, the last {last}"));
        let event = message!(
            id.clone(),
            maker::SAID,
            [
                Argument::Str(None),
                Argument::Object(ObjectId::null()),
                Argument::Array(Box::new(bytes)),
                Argument::Fixed(0),
                Argument::Int(0),
                Argument::Uint(0),
            ]
        );
        server.handle().send_event(event).unwrap();
        server.backend.flush(None).unwrap();
        let events = peer.events();
        assert_eq!(events.len(), 1);
        assert_eq!(
            events[0],
            Event {
                object: 3,
                opcode: maker::SAID,
                body: sent[8..].to_vec()
            }
        );
    }
}

// ---- Misuse

fn panic_of(call: impl FnOnce()) -> String {
    let ended = std::panic::catch_unwind(std::panic::AssertUnwindSafe(call));
    text_of(ended.expect_err("the call panics"))
}

#[test]
fn wrong_events_panic_and_the_next_is_sent() {
    let mut server = plain_server();
    let (mut peer, client, _) = server.connect_and_bind();
    let (_other, other, _) = server.connect_and_bind();
    let handle = server.handle();
    let id = object(&server, &client, &MAKER, 3);
    let foreign = object(&server, &other, &MAKER, 3);
    let child = handle
        .create_object::<Program>(client, &THING, 1, Object::plain("child"))
        .unwrap();
    let text = panic_of(|| handle.send_event(message!(id.clone(), 9, [])).unwrap());
    assert_eq!(text, "Unknown opcode 9 for object maker@3[0].");
    let text = panic_of(|| {
        handle
            .send_event(message!(id.clone(), maker::MADE, []))
            .unwrap()
    });
    assert!(
        text.starts_with("Unexpected signature for event maker@3[0].made: expected [NewId]"),
        "{text}"
    );
    for wrong in [foreign, id.clone()] {
        let event = message!(id.clone(), maker::MADE, [Argument::NewId(wrong)]);
        let text = panic_of(|| handle.send_event(event).unwrap());
        assert!(
            text.starts_with("Event maker@3[0].made cannot be sent"),
            "{text}"
        );
    }
    let event = message!(
        child.clone(),
        thing::MEETS,
        [Argument::Object(ObjectId::null())]
    );
    panic_of(|| handle.send_event(event).unwrap());
    let event = message!(child.clone(), thing::MEETS, [Argument::Object(id)]);
    handle.send_event(event).unwrap();
    handle.destroy_object::<Program>(&child).unwrap();
    let event = message!(child.clone(), thing::TOUCHED, [Argument::Uint(1)]);
    assert_eq!(handle.send_event(event), Err(InvalidId));
    assert_eq!(handle.destroy_object::<Program>(&child), Err(InvalidId));
    server.round();
    assert_eq!(peer.events().len(), 1);
}

#[test]
fn another_type_than_the_servers_panics() {
    let server = Server::new();
    let handle = server.handle();
    let text = panic_of(|| {
        let _ = handle.get_object_data::<String>(ObjectId::null());
    });
    assert_eq!(
        text,
        "Wrong type parameter passed to Handle::get_object_data()."
    );
    assert!(handle.get_object_data::<Program>(ObjectId::null()).is_err());
}

// ---- Handles

#[test]
fn handles_work_in_other_threads_while_the_server_reads() {
    let mut server = plain_server();
    let (mut peer, client, _) = server.connect_and_bind();
    let id = object(&server, &client, &MAKER, 3);
    let threads: Vec<_> = (0..3)
        .map(|_| {
            let (mut handle, client, id) = (server.handle(), client.clone(), id.clone());
            std::thread::spawn(move || {
                for _ in 0..200 {
                    let child = handle
                        .create_object::<Program>(client.clone(), &THING, 1, Object::plain("child"))
                        .unwrap();
                    let made = message!(id.clone(), maker::MADE, [Argument::NewId(child.clone())]);
                    handle.send_event(made).unwrap();
                    let _ = handle.flush(Some(client.clone())); // the socket may be full
                    handle.destroy_object::<Program>(&child).unwrap();
                }
            })
        })
        .collect();
    let mut events = 0;
    while threads.iter().any(|thread| !thread.is_finished()) {
        peer.send(3, maker::POKE, &[]);
        server.round();
        events += peer.events().len();
    }
    for thread in threads {
        thread.join().unwrap();
    }
    // What found no room in the socket is sent when the client has read.
    for _ in 0..10 {
        peer.send(3, maker::POKE, &[]);
        server.round();
        events += peer.events().len();
    }
    assert_eq!(events, 600);
    let gone = server
        .program
        .log
        .iter()
        .filter(|line| line.starts_with("gone"))
        .count();
    assert_eq!(gone, 600);
}

/// Data that take their time when they are told.
struct Slow(Mutex<Vec<&'static str>>, std::time::Duration);

impl Slow {
    fn new() -> Arc<Slow> {
        Arc::new(Slow(
            Mutex::default(),
            std::time::Duration::from_millis(300),
        ))
    }

    fn say(&self, what: &'static str) {
        self.0.lock().unwrap().push(what);
    }

    fn told(&self) -> Vec<&'static str> {
        self.0.lock().unwrap().clone()
    }

    /// Waits until it has been told this.
    fn wait_for(&self, what: &'static str) {
        while self.told().last() != Some(&what) {
            std::thread::yield_now();
        }
    }
}

impl ClientData for Slow {
    fn initialized(&self, _: ClientId) {
        self.say("begins");
        std::thread::sleep(self.1);
        self.say("has begun");
    }

    fn disconnected(&self, _: ClientId, _: DisconnectReason) {
        self.say("ends");
        std::thread::sleep(self.1);
        self.say("has ended");
    }
}

/// An object that tells the client's data when it is asked, and when it is gone.
struct Beside(Arc<Slow>);

impl ObjectData<Program> for Beside {
    fn request(
        self: Arc<Self>,
        _: &Handle,
        _: &mut Program,
        _: ClientId,
        _: wayland_backend::protocol::Message<ObjectId, OwnedFd>,
    ) -> Option<Arc<dyn ObjectData<Program>>> {
        self.0.say("asked");
        None
    }

    fn destroyed(self: Arc<Self>, _: &Handle, _: &mut Program, _: ClientId, _: ObjectId) {
        self.0.say("gone");
    }
}

#[test]
fn a_client_is_told_in_order_beside_other_threads() {
    let slow = Slow::new();
    let data = slow.clone();
    let mut server = Server::with_maker(move || Arc::new(Beside(data.clone())));
    let (peer, stream) = Peer::new();
    peer.send(1, 1, &[Arg::Word(2)]);
    bind(&peer, 1, 3);
    peer.send(3, maker::POKE, &[]);
    let (mut handle, data) = (server.handle(), slow.clone());
    let inserting = std::thread::spawn(move || handle.insert_client(stream, data).unwrap());
    while !slow.told().contains(&"asked") {
        server.round();
    }
    assert_eq!(slow.told(), ["begins", "has begun", "asked"]);
    let client = inserting.join().unwrap();
    let (handle, id) = (server.handle(), client.clone());
    let killing = std::thread::spawn(move || {
        handle.kill_client(id, DisconnectReason::ConnectionClosed);
    });
    slow.wait_for("ends");
    // A second call for the client returns when it has been told.
    let (handle, id, data) = (server.handle(), client.clone(), slow.clone());
    let second = std::thread::spawn(move || {
        handle.kill_client(id, DisconnectReason::ConnectionClosed);
        data.told().contains(&"has ended")
    });
    let dispatched = server
        .backend
        .dispatch_single_client(&mut server.program, client);
    assert!(dispatched.is_err());
    assert_eq!(slow.told()[3..], ["ends", "has ended", "gone"]);
    killing.join().unwrap();
    assert!(second.join().unwrap());
}

#[test]
fn a_client_that_another_thread_kills_while_it_begins_ends_after_that() {
    let server = plain_server();
    let slow = Slow::new();
    let (_peer, stream) = Peer::new();
    let (mut handle, data) = (server.handle(), slow.clone());
    let inserting = std::thread::spawn(move || handle.insert_client(stream, data).unwrap());
    slow.wait_for("begins");
    let mut clients = Vec::new();
    server.handle().with_all_clients(|id| clients.push(id));
    // Calls that tell nothing do not wait.
    assert!(server.handle().get_client_data(clients[0].clone()).is_ok());
    assert_eq!(slow.told(), ["begins"]);
    server
        .handle()
        .kill_client(clients.remove(0), DisconnectReason::ConnectionClosed);
    assert_eq!(slow.told(), ["begins", "has begun", "ends", "has ended"]);
    inserting.join().unwrap();
}

thread_local! {
    /// What this thread's panics call.
    static ON_PANIC: std::cell::RefCell<Option<Handle>> = const { std::cell::RefCell::new(None) };
}

#[test]
fn a_panic_hook_may_call_the_server() {
    // An object of no interface can be made by wl_registry.bind alone.
    static BAD: Interface = Interface {
        name: "bad",
        version: 1,
        requests: &[MessageDesc {
            name: "make",
            signature: &[ArgumentType::NewId],
            since: 1,
            is_destructor: false,
            child_interface: None,
            arg_interfaces: &[],
        }],
        events: &[],
        c_ptr: None,
    };
    let before = std::panic::take_hook();
    std::panic::set_hook(Box::new(move |info| {
        let handle = ON_PANIC.with_borrow_mut(Option::take);
        match handle {
            Some(handle) => handle.with_all_clients(|_| ()),
            None => before(info),
        }
    }));
    let (done, is_done) = std::sync::mpsc::channel();
    std::thread::spawn(move || {
        let server = Server::new();
        ON_PANIC.set(Some(server.handle()));
        let handle = server.handle();
        let global = Global::new(|| Object::plain("bad"));
        let text = panic_of(|| _ = handle.create_global::<Program>(&BAD, 1, global));
        let _ = done.send(text);
    });
    let text = is_done.recv_timeout(std::time::Duration::from_secs(10));
    let text = text.expect("the hook waits for a lock");
    assert!(
        text.starts_with("The interface bad cannot be used"),
        "{text}"
    );
}

#[test]
fn a_weak_handle_ends_with_the_server() {
    let server = Server::new();
    let handle = server.handle();
    let weak = handle.downgrade();
    drop(server);
    assert!(weak.upgrade().is_some());
    drop(handle);
    assert!(weak.upgrade().is_none());
}

#[test]
fn handles_and_data_go_from_thread_to_thread() {
    fn is_sent<T: Send + Sync + ?Sized>() {}
    is_sent::<Backend<Program>>();
    is_sent::<Handle>();
    is_sent::<wayland_backend::server::WeakHandle>();
    is_sent::<ObjectId>();
    is_sent::<dyn ObjectData<Program>>();
    is_sent::<dyn ClientData>();
}

#[test]
fn credentials_are_those_of_this_process() {
    let server = Server::new();
    let (_peer, client, _) = server.connect();
    let credentials = server.handle().get_client_credentials(client).unwrap();
    assert_eq!(credentials.pid, std::process::id() as i32);
    assert_eq!(credentials.uid, rustix::process::getuid().as_raw());
}
