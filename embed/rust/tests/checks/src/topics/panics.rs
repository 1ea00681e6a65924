//! After a panic, of a callback or of a call, the session can be used.

use std::sync::Arc;

use wayland_backend::protocol::Argument;
use wayland_backend::server::{
    self, ClientData, ClientId, DisconnectReason, GlobalHandler, GlobalId, Handle, ObjectId,
};
use wayland_backend::{client, message};

use crate::pair::*;
use crate::table::*;
use crate::{panics, Checks};

pub fn run(checks: &mut Checks) {
    of_calls(checks);
    in_request(checks);
    in_event(checks);
    in_destroyed(checks);
    in_bind(checks);
    in_can_view(checks);
    in_disconnected(checks);
    without_data(checks);
}

/// What is wrong, the opcode, and the arguments.
type Misuse<Id> = (&'static str, u16, Vec<Argument<Id, i32>>);

/// Calls that the program should not make.
fn of_calls(checks: &mut Checks) {
    let (mut server, client) = pair();
    let shape = client.shape.clone();
    let requests: Vec<Misuse<client::ObjectId>> = vec![
        ("an opcode that is not there", 99, vec![]),
        (
            "an argument of another type",
            NUMBER,
            vec![Argument::Uint(1)],
        ),
        ("too few arguments", WRITE, vec![text("one")]),
        (
            "too many arguments",
            NUMBER,
            vec![Argument::Int(1), Argument::Int(2)],
        ),
        (
            "an object of another interface",
            WRITE,
            vec![text("a"), Argument::Object(client.registry.clone())],
        ),
    ];
    for (what, opcode, arguments) in requests {
        let before = open_files();
        let refused = panics(|| assert!(client.request(&shape, opcode, arguments).is_ok()));
        checks.check(&format!("a request with {what} panics"), refused);
        checks.check(
            "and the session works",
            works(&mut server, &client) && open_files() == before,
        );
    }
    let make = message!(shape.clone(), MAKE, [new_id()]);
    checks.check(
        "a new object without data panics",
        panics(|| drop(client.backend.send_request(make, None, None))),
    );
    checks.check("and the session works", works(&mut server, &client));
    // Its descriptor must not stay open, nor be sent later.
    let (before, sent) = (open_files(), file(1));
    let all = vec![
        Argument::Uint(1),
        Argument::Int(2),
        Argument::Fixed(3),
        text("a"),
        Argument::Array(Box::default()),
        Argument::Object(client::ObjectId::null()),
        fd(&sent),
    ];
    checks.check(
        "a null object where none may be null panics",
        panics(|| drop(client.request(&shape, ALL, all))),
    );
    drop(sent);
    checks.equal("and its descriptor is closed", open_files(), before);
    client.request(&shape, GIVE, vec![fd(&file(2))]).unwrap();
    client.flush();
    server.serve();
    checks.equal(
        "and not sent",
        server.came().last().map(|it| it.file),
        Some(Some(2)),
    );
    // A server's calls.
    let bound = server.last_bound();
    let events: Vec<Misuse<ObjectId>> = vec![
        ("an opcode that is not there", 99, vec![]),
        (
            "an argument of another type",
            NUMBER,
            vec![Argument::Fixed(1)],
        ),
        ("too few arguments", WRITE, vec![text("one")]),
    ];
    for (what, opcode, arguments) in events {
        checks.check(
            &format!("an event with {what} panics"),
            panics(|| _ = server.event(&bound, opcode, arguments)),
        );
        checks.check("and the server works", works(&mut server, &client));
    }
    let handle = server.handle();
    let high =
        panics(|| _ = handle.create_global::<State>(&SHAPE, 9, Arc::new(Global(Doing::default()))));
    checks.check("a global of too high a version panics", high);
    checks.check(
        "data of another state panics",
        panics(|| drop(handle.get_object_data::<u8>(bound.clone()))),
    );
    checks.check("and the server works", works(&mut server, &client));
}

fn in_request(checks: &mut Checks) {
    let on_request = |_: &Handle, _: &mut State, _: &ClientId, _: &ObjectId, came: &Came| {
        assert!(came.number != 13, "a handler's own panic");
    };
    let doing = Doing {
        on_request: Some(Arc::new(on_request)),
        ..Doing::default()
    };
    let (mut server, client) = pair_doing(doing, Inbox::default());
    for number in [12, 13, 14] {
        client.number(number);
    }
    client
        .request(&client.shape, GIVE, vec![fd(&file(3))])
        .unwrap();
    client.flush();
    checks.check(
        "a handler's panic comes out of the dispatch",
        panics(|| _ = server.dispatch()),
    );
    // What was received with it is served at once, since poll does not tell of it any more.
    let came: Vec<_> = server
        .came()
        .into_iter()
        .map(|it| (it.number, it.file))
        .collect();
    checks.equal(
        "and what came after it is served",
        came,
        vec![(12, None), (14, None), (0, Some(3))],
    );
    checks.check("and the session works", works(&mut server, &client));
}

fn in_event(checks: &mut Checks) {
    let on_event = |_: &client::Backend, _: &client::ObjectId, came: &Came| {
        assert!(came.number != 13, "a handler's own panic");
    };
    let inbox = Inbox {
        on_event: Some(Box::new(on_event)),
        ..Inbox::default()
    };
    let (mut server, client) = pair_doing(Doing::default(), inbox);
    for number in [12, 13, 14] {
        server.event(&server.last_bound(), NUMBER, vec![Argument::Int(number)]);
    }
    server.serve();
    checks.check(
        "a handler's panic comes out of the reading",
        panics(|| _ = client.read()),
    );
    let came: Vec<_> = client.came().into_iter().map(|it| it.number).collect();
    checks.equal("and what came after it is read", came, vec![12, 14]);
    checks.check("and the session works", works(&mut server, &client));
}

fn in_destroyed(checks: &mut Checks) {
    let doing = Doing {
        on_destroyed: Some(Arc::new(|_: &Handle, _: &ClientId, _: &ObjectId| {
            panic!("in destroyed")
        })),
        ..Doing::default()
    };
    let inbox = Inbox {
        on_destroyed: Some(Box::new(|_: &client::ObjectId| panic!("in destroyed"))),
        ..Inbox::default()
    };
    let (mut server, client) = pair_doing(doing, inbox);
    let child = client.make();
    checks.check(
        "a panic in a client's `destroyed` comes out",
        panics(|| drop(client.request(&child, END, vec![]))),
    );
    client.flush();
    checks.check(
        "a panic in a server's `destroyed` comes out",
        panics(|| _ = server.dispatch()),
    );
    checks.check("and both work", works(&mut server, &client));
}

/// A global whose callbacks panic as long as they are told to.
struct Panicking {
    in_bind: std::sync::atomic::AtomicBool,
    in_can_view: std::sync::atomic::AtomicBool,
}

fn is_set(flag: &std::sync::atomic::AtomicBool) -> bool {
    flag.swap(false, std::sync::atomic::Ordering::SeqCst)
}

impl GlobalHandler<State> for Panicking {
    fn can_view(&self, _: ClientId, _: &Arc<dyn ClientData>, _: GlobalId) -> bool {
        assert!(!is_set(&self.in_can_view), "in can_view");
        true
    }

    fn bind(
        self: Arc<Self>,
        _: &Handle,
        state: &mut State,
        _: ClientId,
        _: GlobalId,
        id: ObjectId,
    ) -> Arc<dyn server::ObjectData<State>> {
        assert!(!is_set(&self.in_bind), "in bind");
        state.bound.push(id);
        Arc::new(Object(Doing::default()))
    }
}

fn in_bind(checks: &mut Checks) {
    let (mut server, client) = pair();
    let global = Panicking {
        in_bind: true.into(),
        in_can_view: false.into(),
    };
    server
        .handle()
        .create_global::<State>(&SHAPE, 1, Arc::new(global));
    let bind = || {
        let bind = message!(
            client.registry.clone(),
            0,
            [
                Argument::Uint(2),
                text("shape"),
                Argument::Uint(1),
                new_id()
            ]
        );
        client
            .backend
            .send_request(bind, Some(client.inbox.clone()), Some((&SHAPE, 1)))
            .unwrap();
        client.flush();
    };
    bind();
    checks.check(
        "a panic in `bind` comes out",
        panics(|| _ = server.dispatch()),
    );
    checks.check("and both work", works(&mut server, &client));
    bind();
    server.serve();
    checks.equal("and the next bind succeeds", server.state.bound.len(), 2);
}

fn in_can_view(checks: &mut Checks) {
    let (mut server, client) = pair();
    let global = Panicking {
        in_bind: false.into(),
        in_can_view: true.into(),
    };
    let handle = server.handle();
    checks.check(
        "a panic in `can_view` comes out",
        panics(|| _ = handle.create_global::<State>(&SHAPE, 1, Arc::new(global))),
    );
    checks.check("and both work", works(&mut server, &client));
}

struct PanicsAtEnd;

impl ClientData for PanicsAtEnd {
    fn disconnected(&self, _: ClientId, _: DisconnectReason) {
        panic!("in disconnected");
    }
}

fn in_disconnected(checks: &mut Checks) {
    let (mut server, client) = pair();
    let (ours, theirs) = std::os::unix::net::UnixStream::pair().unwrap();
    let id = server
        .handle()
        .insert_client(theirs, Arc::new(PanicsAtEnd))
        .unwrap();
    let handle = server.handle();
    checks.check(
        "a panic in `disconnected` comes out",
        panics(|| handle.kill_client(id, DisconnectReason::ConnectionClosed)),
    );
    drop(ours);
    server.serve();
    checks.equal("and the client is gone", server.clients(), 1);
    checks.check("and the other is served", works(&mut server, &client));
}

/// An object that makes one without data for it.
struct Forgetful;

impl server::ObjectData<State> for Forgetful {
    fn request(
        self: Arc<Self>,
        _: &Handle,
        _: &mut State,
        _: ClientId,
        _: wayland_backend::protocol::Message<ObjectId, std::os::fd::OwnedFd>,
    ) -> Option<Arc<dyn server::ObjectData<State>>> {
        None
    }

    fn destroyed(self: Arc<Self>, _: &Handle, _: &mut State, _: ClientId, _: ObjectId) {}
}

fn without_data(checks: &mut Checks) {
    let (mut server, client) = pair();
    let child = client.make();
    client.flush();
    server.serve();
    let handle = server.handle();
    let id = handle.get_client(server.last_bound()).unwrap();
    let of_server = handle
        .object_for_protocol_id(id, &SHAPE, child.protocol_id())
        .unwrap();
    handle
        .set_object_data::<State>(of_server, Arc::new(Forgetful))
        .unwrap();
    client.request(&child, MAKE, vec![new_id()]).unwrap();
    client.flush();
    checks.check(
        "a handler that gives a new object no data panics",
        panics(|| _ = server.dispatch()),
    );
    checks.check("and the session works", works(&mut server, &client));
}
