//! A server's program that writes down what it is told.

use std::os::fd::OwnedFd;
use std::panic::{catch_unwind, AssertUnwindSafe};
use std::sync::{Arc, Mutex};

use wayland_backend::protocol::{
    AllowNull, Argument, ArgumentType, Interface, Message, MessageDesc, ANONYMOUS_INTERFACE,
};
use wayland_backend::server::{
    Backend, ClientData, ClientId, DisconnectReason, GlobalHandler, GlobalId, Handle, ObjectData,
    ObjectId,
};

use crate::peer::{Arg, Peer};

const fn desc(
    name: &'static str,
    signature: &'static [ArgumentType],
    is_destructor: bool,
) -> MessageDesc {
    MessageDesc {
        name,
        signature,
        since: 1,
        is_destructor,
        child_interface: None,
        arg_interfaces: &[],
    }
}

const fn making(name: &'static str, child: &'static Interface) -> MessageDesc {
    MessageDesc {
        child_interface: Some(child),
        ..desc(name, &[ArgumentType::NewId], false)
    }
}

/// Requests and events of the interface `maker`.
#[allow(dead_code)]
pub mod maker {
    pub const MAKE: u16 = 0;
    pub const DESTROY: u16 = 1;
    pub const TAKE: u16 = 2;
    pub const SAY: u16 = 3;
    pub const POKE: u16 = 4;
    pub const MADE: u16 = 0;
    pub const GIVEN: u16 = 1;
    pub const SAID: u16 = 2;
    pub const OVER: u16 = 3;
}

const SAY: MessageDesc = MessageDesc {
    arg_interfaces: &[&THING],
    ..desc(
        "say",
        &[
            ArgumentType::Str(AllowNull::Yes),
            ArgumentType::Object(AllowNull::Yes),
            ArgumentType::Array,
            ArgumentType::Fixed,
            ArgumentType::Int,
            ArgumentType::Uint,
        ],
        false,
    )
};

pub static MAKER: Interface = Interface {
    name: "maker",
    version: 3,
    requests: &[
        making("make", &THING),
        desc("destroy", &[], true),
        desc("take", &[ArgumentType::Fd], false),
        SAY,
        desc("poke", &[], false),
    ],
    events: &[
        making("made", &THING),
        desc("given", &[ArgumentType::Fd], false),
        SAY,
        desc("over", &[], true),
    ],
    c_ptr: None,
};

pub mod thing {
    pub const DESTROY: u16 = 0;
    pub const TOUCHED: u16 = 0;
    pub const MEETS: u16 = 1;
}

pub static THING: Interface = Interface {
    name: "thing",
    version: 3,
    requests: &[desc("destroy", &[], true)],
    events: &[
        desc("touched", &[ArgumentType::Uint], false),
        MessageDesc {
            arg_interfaces: &[&ANONYMOUS_INTERFACE],
            ..desc("meets", &[ArgumentType::Object(AllowNull::No)], false)
        },
    ],
    c_ptr: None,
};

/// The program's state.
#[derive(Default)]
pub struct Program {
    pub log: Vec<String>,
}

impl Program {
    pub fn take_log(&mut self) -> Vec<String> {
        std::mem::take(&mut self.log)
    }
}

pub type Data = Arc<dyn ObjectData<Program>>;
type Answer = Option<Data>;
type Asked = Message<ObjectId, OwnedFd>;
type Request = dyn Fn(&Handle, &mut Program, &ClientId, Asked) -> Answer + Send + Sync;

/// An object of the program.
pub struct Object {
    pub name: &'static str,
    request: Box<Request>,
}

impl Object {
    /// An object whose requests the closure handles, after they were written down.
    pub fn handling(
        name: &'static str,
        request: impl Fn(&Handle, &mut Program, &ClientId, Asked) -> Answer + Send + Sync + 'static,
    ) -> Data {
        Arc::new(Object {
            name,
            request: Box::new(request),
        })
    }

    /// An object whose requests are written down. New objects are such objects, too.
    pub fn plain(name: &'static str) -> Data {
        Object::handling(name, |_, _, _, message| {
            made_by(&message).map(|_| Object::plain("child"))
        })
    }
}

/// The object that a request makes.
pub fn made_by(message: &Message<ObjectId, OwnedFd>) -> Option<ObjectId> {
    message.args.iter().find_map(|arg| match arg {
        Argument::NewId(id) => Some(id.clone()),
        _ => None,
    })
}

impl ObjectData<Program> for Object {
    fn request(
        self: Arc<Self>,
        handle: &Handle,
        program: &mut Program,
        client: ClientId,
        message: Message<ObjectId, OwnedFd>,
    ) -> Option<Data> {
        let sender = &message.sender_id;
        let name = sender.interface().requests[usize::from(message.opcode)].name;
        program
            .log
            .push(format!("{} {}@{}", name, self.name, sender.protocol_id()));
        (self.request)(handle, program, &client, message)
    }

    fn destroyed(
        self: Arc<Self>,
        _: &Handle,
        program: &mut Program,
        _: ClientId,
        object: ObjectId,
    ) {
        program
            .log
            .push(format!("gone {}@{}", self.name, object.protocol_id()));
    }
}

type Sees = dyn Fn(&ClientId, &Arc<dyn ClientData>, &GlobalId) -> bool + Send + Sync;

/// A global whose objects the closure makes.
pub struct Global {
    object: Box<dyn Fn() -> Data + Send + Sync>,
    sees: Box<Sees>,
}

impl Global {
    pub fn new(object: impl Fn() -> Data + Send + Sync + 'static) -> Arc<Global> {
        Arc::new(Global {
            object: Box::new(object),
            sees: Box::new(|_, _, _| true),
        })
    }

    /// One that the clients see for which the closure says so.
    pub fn seen_by(
        sees: impl Fn(&ClientId, &Arc<dyn ClientData>, &GlobalId) -> bool + Send + Sync + 'static,
    ) -> Arc<Global> {
        Arc::new(Global {
            object: Box::new(|| Object::plain("maker")),
            sees: Box::new(sees),
        })
    }
}

impl GlobalHandler<Program> for Global {
    fn can_view(&self, client: ClientId, data: &Arc<dyn ClientData>, global: GlobalId) -> bool {
        (self.sees)(&client, data, &global)
    }

    fn bind(
        self: Arc<Self>,
        _: &Handle,
        program: &mut Program,
        _: ClientId,
        _: GlobalId,
        object: ObjectId,
    ) -> Data {
        program.log.push(format!("bind {object}"));
        (self.object)()
    }
}

/// What a client's data are told.
#[derive(Default)]
pub struct Told(pub Mutex<Vec<String>>);

impl Told {
    pub fn take(&self) -> Vec<String> {
        std::mem::take(&mut self.0.lock().unwrap())
    }
}

impl ClientData for Told {
    fn initialized(&self, _: ClientId) {
        self.0.lock().unwrap().push("initialized".into());
    }

    fn disconnected(&self, _: ClientId, reason: DisconnectReason) {
        let text = match reason {
            DisconnectReason::ConnectionClosed => "closed".into(),
            DisconnectReason::ProtocolError(error) => format!(
                "{}@{}: {} {}",
                error.object_interface, error.object_id, error.code, error.message
            ),
        };
        self.0.lock().unwrap().push(text);
    }
}

/// The text of a panic.
pub fn text_of(panic: Box<dyn std::any::Any + Send>) -> String {
    match panic.downcast::<String>() {
        Ok(text) => *text,
        Err(text) => text.downcast::<&str>().unwrap().to_string(),
    }
}

pub struct Server {
    pub backend: Backend<Program>,
    pub program: Program,
}

impl Server {
    pub fn new() -> Server {
        Server {
            backend: Backend::new().unwrap(),
            program: Program::default(),
        }
    }

    /// A server with a global `maker`, version 3, whose name is 1.
    pub fn with_maker(object: impl Fn() -> Data + Send + Sync + 'static) -> Server {
        let server = Server::new();
        server
            .handle()
            .create_global::<Program>(&MAKER, 3, Global::new(object));
        server
    }

    pub fn handle(&self) -> Handle {
        self.backend.handle()
    }

    /// One round: reads, and sends.
    pub fn round(&mut self) -> usize {
        let count = self
            .backend
            .dispatch_all_clients(&mut self.program)
            .unwrap();
        self.backend.flush(None).unwrap();
        count
    }

    /// One round in which a handler panics. The answer is the panic's text.
    pub fn panicking_round(&mut self) -> String {
        let ended = catch_unwind(AssertUnwindSafe(|| self.round()));
        text_of(ended.expect_err("the round panics"))
    }

    pub fn connect(&self) -> (Peer, ClientId, Arc<Told>) {
        let (peer, stream) = Peer::new();
        let told = Arc::new(Told::default());
        let id = self.handle().insert_client(stream, told.clone()).unwrap();
        (peer, id, told)
    }

    /// A client that has a registry, object 2, and has bound the first global as object 3.
    pub fn connect_and_bind(&mut self) -> (Peer, ClientId, Arc<Told>) {
        let (mut peer, id, told) = self.connect();
        peer.send(1, 1, &[Arg::Word(2)]);
        bind(&peer, 1, 3);
        self.round();
        peer.events();
        self.program.take_log();
        told.take();
        (peer, id, told)
    }
}

/// Binds the global of this name, a maker of version 3.
pub fn bind(peer: &Peer, name: u32, object: u32) {
    peer.send(
        2,
        0,
        &[
            Arg::Word(name),
            Arg::Text("maker"),
            Arg::Word(3),
            Arg::Word(object),
        ],
    );
}
