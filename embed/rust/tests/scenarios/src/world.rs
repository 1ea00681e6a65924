//! A server and its client, whose callbacks tell what they are called with.

use std::ffi::CString;
use std::fmt::Debug;
use std::io::{ErrorKind, Read, Write};
use std::os::fd::{AsFd, OwnedFd};
use std::os::unix::net::UnixStream;
use std::panic::{catch_unwind, AssertUnwindSafe};
use std::sync::{Arc, Mutex};

use rustix::fs::MemfdFlags;
use rustix::net::sockopt;
use wayland_backend::protocol::{Argument, Interface, Message};
use wayland_backend::{client, message, server};

use crate::table::SHAPE;
use crate::told::{self, Told};

pub type ClientArgument = Argument<client::ObjectId, i32>;
pub type ServerArgument = Argument<server::ObjectId, i32>;

/// Whether a callback answers data for a new object.
#[derive(Clone, Copy, PartialEq)]
pub enum Answer {
    IfAsked,
    Always,
    Never,
}

type OnEvent = dyn Fn(&client::Backend, &client::ObjectId) + Send + Sync;
type OnRequest = dyn Fn(&server::Handle, &server::ClientId, &server::ObjectId) + Send + Sync;

/// An object of the client.
pub struct ClientObject {
    pub told: Told,
    pub name: &'static str,
    pub answer: Answer,
    pub on_event: Option<Box<OnEvent>>,
}

impl ClientObject {
    pub fn new(told: &Told, name: &'static str) -> Self {
        Self {
            told: told.clone(),
            name,
            answer: Answer::IfAsked,
            on_event: None,
        }
    }
}

impl client::ObjectData for ClientObject {
    fn event(
        self: Arc<Self>,
        backend: &client::Backend,
        event: Message<client::ObjectId, OwnedFd>,
    ) -> Option<Arc<dyn client::ObjectData>> {
        let sender = &event.sender_id;
        let is_known = backend.info(sender.clone()).is_ok();
        self.told.say(format!(
            "{}: event {}, known {is_known}",
            self.name,
            told::message(&event)
        ));
        let makes = event.args.iter().any(|it| matches!(it, Argument::NewId(_)));
        if let Some(act) = &self.on_event {
            act(backend, sender);
        }
        let wants = self.answer == Answer::Always || (makes && self.answer == Answer::IfAsked);
        wants.then(|| Arc::new(Self::new(&self.told, "child")) as Arc<dyn client::ObjectData>)
    }

    fn destroyed(&self, id: client::ObjectId) {
        self.told.say(format!("{}: destroyed {id}", self.name));
    }
}

/// What the server's callbacks are lent.
pub struct State {
    pub requests: usize,
}

/// An object of the server.
pub struct ServerObject {
    pub told: Told,
    pub name: &'static str,
    pub answer: Answer,
    pub on_request: Option<Box<OnRequest>>,
}

impl ServerObject {
    pub fn new(told: &Told, name: &'static str) -> Self {
        Self {
            told: told.clone(),
            name,
            answer: Answer::IfAsked,
            on_request: None,
        }
    }
}

impl server::ObjectData<State> for ServerObject {
    fn request(
        self: Arc<Self>,
        handle: &server::Handle,
        state: &mut State,
        client: server::ClientId,
        request: Message<server::ObjectId, OwnedFd>,
    ) -> Option<Arc<dyn server::ObjectData<State>>> {
        state.requests += 1;
        let sender = &request.sender_id;
        let is_known = handle.object_info(sender.clone()).is_ok();
        self.told.say(format!(
            "{}: request {}, known {is_known}",
            self.name,
            told::message(&request)
        ));
        let makes = request
            .args
            .iter()
            .any(|it| matches!(it, Argument::NewId(_)));
        if let Some(act) = &self.on_request {
            act(handle, &client, sender);
        }
        let wants = self.answer == Answer::Always || (makes && self.answer == Answer::IfAsked);
        wants.then(|| {
            Arc::new(Self::new(&self.told, "child of server")) as Arc<dyn server::ObjectData<State>>
        })
    }

    fn destroyed(
        self: Arc<Self>,
        handle: &server::Handle,
        _: &mut State,
        client: server::ClientId,
        id: server::ObjectId,
    ) {
        let client = handle.get_client_data(client).is_ok();
        let is_known = handle.object_info(id.clone()).is_ok();
        self.told.say(format!(
            "{}: destroyed {id}, client {client}, known {is_known}",
            self.name
        ));
    }
}

/// A global, which keeps the ids that were bound.
pub struct Global {
    pub told: Told,
    pub bound: Mutex<Vec<server::ObjectId>>,
    pub is_shown: bool,
    /// Makes the data of a bound object.
    pub object: Box<dyn Fn(&Told) -> ServerObject + Send + Sync>,
}

impl server::GlobalHandler<State> for Global {
    fn can_view(
        &self,
        _: server::ClientId,
        _: &Arc<dyn server::ClientData>,
        _: server::GlobalId,
    ) -> bool {
        self.is_shown
    }

    fn bind(
        self: Arc<Self>,
        handle: &server::Handle,
        _: &mut State,
        client: server::ClientId,
        global: server::GlobalId,
        id: server::ObjectId,
    ) -> Arc<dyn server::ObjectData<State>> {
        let info = handle.object_info(id.clone()).map(|it| (it.id, it.version));
        let (global, client) = (
            handle.global_info(global).is_ok(),
            handle.get_client_data(client).is_ok(),
        );
        self.told.say(format!(
            "bind {id}, {info:?}, client {client}, global {global}"
        ));
        self.bound.lock().unwrap().push(id);
        Arc::new((self.object)(&self.told))
    }
}

/// What the server keeps for a client.
pub struct Client(pub Told);

impl server::ClientData for Client {
    fn initialized(&self, _: server::ClientId) {
        self.0.say("initialized");
    }

    fn disconnected(&self, _: server::ClientId, reason: server::DisconnectReason) {
        self.0.say(format!("disconnected: {reason:?}"));
    }
}

/// How a scenario begins.
pub struct Setup {
    pub client: Box<dyn Fn(&Told) -> ClientObject>,
    pub server: Box<dyn Fn(&Told) -> ServerObject + Send + Sync>,
    /// Little room in the sockets, so that sends are cut.
    pub is_narrow: bool,
    pub is_shown: bool,
}

impl Default for Setup {
    fn default() -> Self {
        Self {
            client: Box::new(|told| ClientObject::new(told, "shape")),
            server: Box::new(|told| ServerObject::new(told, "shape of server")),
            is_narrow: false,
            is_shown: true,
        }
    }
}

/// The server, a client's socket or its session, and what they tell.
pub struct World {
    pub told: Told,
    pub state: State,
    pub server: server::Backend<State>,
    pub global: server::GlobalId,
    pub handler: Arc<Global>,
    pub id: server::ClientId,
    /// The socket of a client that sends bytes by hand.
    pub raw: Option<UnixStream>,
    pub client: Option<client::Backend>,
    pub registry: client::ObjectId,
    pub shape: client::ObjectId,
}

impl World {
    /// A client that has bound the global.
    pub fn new(told: &Told, setup: Setup) -> Self {
        let make = (setup.client)(told);
        let (mut world, socket) = Self::server_only(told, setup);
        let client = client::Backend::connect(socket).unwrap();
        let registry = Arc::new(ClientObject::new(told, "registry"));
        let display = client.display_id();
        world.registry = client
            .send_request(
                message!(display, 1, [Argument::NewId(client::ObjectId::null())]),
                Some(registry),
                None,
            )
            .unwrap();
        world.client = Some(client);
        world.shape = world.bind(1, "shape", 3, &SHAPE, Arc::new(make)).unwrap();
        world.turn();
        world
    }

    /// A client that sends bytes by hand.
    pub fn by_hand(told: &Told, setup: Setup) -> Self {
        let (mut world, socket) = Self::server_only(told, setup);
        socket.set_nonblocking(true).unwrap();
        world.raw = Some(socket);
        world
    }

    fn server_only(told: &Told, setup: Setup) -> (Self, UnixStream) {
        let (ours, theirs) = UnixStream::pair().unwrap();
        if setup.is_narrow {
            for socket in [&ours, &theirs] {
                sockopt::set_socket_send_buffer_size(socket, 2304).unwrap();
            }
        }
        let server = server::Backend::<State>::new().unwrap();
        let handler = Arc::new(Global {
            told: told.clone(),
            bound: Mutex::default(),
            is_shown: setup.is_shown,
            object: setup.server,
        });
        let mut handle = server.handle();
        let global = handle.create_global::<State>(&SHAPE, 3, handler.clone());
        let id = handle
            .insert_client(theirs, Arc::new(Client(told.clone())))
            .unwrap();
        let null = client::ObjectId::null();
        let world = Self {
            told: told.clone(),
            state: State { requests: 0 },
            server,
            global,
            handler,
            id,
            raw: None,
            client: None,
            registry: null.clone(),
            shape: null,
        };
        (world, ours)
    }

    pub fn say(&self, line: impl Into<String>) {
        self.told.say(line);
    }

    pub fn tell(&self, name: &str, value: impl Debug) {
        self.told.say(format!("{name}: {value:?}"));
    }

    // ---- the server

    pub fn handle(&self) -> server::Handle {
        self.server.handle()
    }

    /// The first object that was bound.
    pub fn bound(&self) -> server::ObjectId {
        self.handler.bound.lock().unwrap()[0].clone()
    }

    pub fn dispatch(&mut self) {
        let answer = self.server.dispatch_all_clients(&mut self.state);
        self.say(format!("dispatched {}", told::server(answer)));
    }

    pub fn dispatch_one(&mut self) {
        let answer = self
            .server
            .dispatch_single_client(&mut self.state, self.id.clone());
        self.say(format!("dispatched one {}", told::server(answer)));
    }

    pub fn flush_server(&mut self) {
        let answer = self.server.flush(None);
        self.say(format!("server flushed {}", told::server(answer)));
    }

    pub fn serve(&mut self) {
        self.dispatch();
        self.flush_server();
    }

    pub fn event(&self, sender: server::ObjectId, opcode: u16, arguments: Vec<ServerArgument>) {
        let handle = self.handle();
        let event = Message {
            sender_id: sender,
            opcode,
            args: arguments.into(),
        };
        let answer = or_panic(|| handle.send_event(event));
        self.say(format!("event {opcode}: {answer}"));
    }

    pub fn create(&self, interface: &'static Interface, version: u32) -> server::ObjectId {
        let data = Arc::new(ServerObject::new(&self.told, "created"));
        self.handle()
            .create_object::<State>(self.id.clone(), interface, version, data)
            .unwrap()
    }

    // ---- the client

    pub fn client(&self) -> client::Backend {
        self.client.clone().unwrap()
    }

    pub fn flush(&self) {
        self.say(format!("flushed {}", told::client(self.client().flush())));
    }

    pub fn read(&self) {
        match self.client().prepare_read() {
            Some(guard) => self.say(format!("read {}", told::client(guard.read()))),
            None => self.say("nothing can be read"),
        }
    }

    /// The client's requests to the server, and what that sends back.
    pub fn turn(&mut self) {
        self.flush();
        self.serve();
        self.read();
    }

    /// A request whose new object, if it makes one, gets data.
    pub fn request(
        &self,
        sender: &client::ObjectId,
        opcode: u16,
        arguments: Vec<ClientArgument>,
    ) -> client::ObjectId {
        let makes = arguments.iter().any(|it| matches!(it, Argument::NewId(_)));
        let data = makes.then(|| {
            Arc::new(ClientObject::new(&self.told, "child")) as Arc<dyn client::ObjectData>
        });
        self.request_with(sender, opcode, arguments, data)
    }

    pub fn request_with(
        &self,
        sender: &client::ObjectId,
        opcode: u16,
        arguments: Vec<ClientArgument>,
        data: Option<Arc<dyn client::ObjectData>>,
    ) -> client::ObjectId {
        let client = self.client();
        let request = Message {
            sender_id: sender.clone(),
            opcode,
            args: arguments.into(),
        };
        let mut made = client::ObjectId::null();
        let answer = or_panic(|| {
            client.send_request(request, data, None).map(|id| {
                made = id;
                made.to_string()
            })
        });
        self.say(format!("request {opcode}: {answer}"));
        made
    }

    pub fn bind(
        &self,
        name: u32,
        interface: &str,
        version: u32,
        child: &'static Interface,
        data: Arc<dyn client::ObjectData>,
    ) -> Result<client::ObjectId, client::InvalidId> {
        let new = Argument::NewId(client::ObjectId::null());
        let bind = message!(
            self.registry.clone(),
            0,
            [
                Argument::Uint(name),
                text(interface),
                Argument::Uint(version),
                new
            ]
        );
        self.client()
            .send_request(bind, Some(data), Some((child, version)))
    }

    // ---- a client by hand

    pub fn send(&mut self, words: &[u32]) {
        let bytes: Vec<u8> = words.iter().flat_map(|word| word.to_le_bytes()).collect();
        // The server may have ended the connection.
        let _ = self.raw.as_mut().unwrap().write_all(&bytes);
    }

    /// Tells what came.
    pub fn receive(&mut self) {
        let (bytes, end) = received(self.raw.as_mut().unwrap());
        self.say(format!("received {}; {end}", told::words(&bytes)));
    }
}

/// All that has come, and how the connection is.
pub fn received(socket: &mut UnixStream) -> (Vec<u8>, &'static str) {
    let mut all = Vec::new();
    let mut buffer = [0; 65536];
    loop {
        match socket.read(&mut buffer) {
            Ok(0) => return (all, "ended"),
            Ok(count) => all.extend_from_slice(&buffer[..count]),
            Err(error) if error.kind() == ErrorKind::WouldBlock => return (all, "open"),
            Err(error) => {
                let end = if error.kind() == ErrorKind::ConnectionReset {
                    "reset"
                } else {
                    "broken"
                };
                return (all, end);
            }
        }
    }
}

/// What a call answers, or that it panics.
pub fn or_panic<T: Debug>(call: impl FnOnce() -> T) -> String {
    match catch_unwind(AssertUnwindSafe(call)) {
        Ok(value) => format!("{value:?}"),
        Err(_) => "panic".into(),
    }
}

pub fn text<Id, Fd>(text: &str) -> Argument<Id, Fd> {
    Argument::Str(Some(Box::new(CString::new(text).unwrap())))
}

/// A file that is known by its size.
pub fn file(size: u64) -> OwnedFd {
    let file = rustix::fs::memfd_create("sized", MemfdFlags::CLOEXEC).unwrap();
    rustix::fs::ftruncate(file.as_fd(), size).unwrap();
    file
}

/// How many descriptors the process has open.
pub fn open_files() -> usize {
    std::fs::read_dir("/proc/self/fd").unwrap().count()
}
