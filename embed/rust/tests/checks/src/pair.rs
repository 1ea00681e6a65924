//! A server and clients whose callbacks keep what came.

use std::ffi::CString;
use std::os::fd::{AsFd, AsRawFd, OwnedFd};
use std::os::unix::net::UnixStream;
use std::sync::atomic::{AtomicUsize, Ordering};
use std::sync::{Arc, Mutex};

use rustix::fs::MemfdFlags;
use wayland_backend::client::{
    Backend, ObjectData as ClientObjectData, ObjectId as ClientObjectId, ReadEventsGuard,
    WaylandError,
};
use wayland_backend::protocol::{Argument, Message};
use wayland_backend::server::{self, ClientId, DisconnectReason, GlobalId, Handle, ObjectId};
use wayland_backend::{client, message};

use crate::table::*;

/// What a message brought: its opcode, and of its arguments what there is of each kind.
#[derive(Clone, Debug, Default, PartialEq)]
pub struct Came {
    pub opcode: u16,
    pub number: i64,
    pub bytes: Vec<u8>,
    /// The size of its descriptor's file.
    pub file: Option<u64>,
}

impl Came {
    fn new<Id>(message: &Message<Id, OwnedFd>) -> Self {
        let mut it = Self {
            opcode: message.opcode,
            ..Self::default()
        };
        for argument in &message.args {
            match argument {
                Argument::Int(number) | Argument::Fixed(number) => it.number = i64::from(*number),
                Argument::Uint(number) => it.number = i64::from(*number),
                Argument::Str(Some(text)) => it.bytes = text.as_bytes().to_vec(),
                Argument::Array(bytes) => it.bytes = bytes.to_vec(),
                Argument::Fd(fd) => it.file = Some(size(fd.as_fd())),
                _ => {}
            }
        }
        it
    }
}

fn size(fd: std::os::fd::BorrowedFd<'_>) -> u64 {
    rustix::fs::fstat(fd).unwrap().st_size as u64
}

// ---- the server

/// What the server's callbacks are lent.
#[derive(Default)]
pub struct State {
    pub came: Vec<Came>,
    pub destroyed: usize,
    pub bound: Vec<ObjectId>,
}

type OnRequest = dyn Fn(&Handle, &mut State, &ClientId, &ObjectId, &Came) + Send + Sync;
type OnDestroyed = dyn Fn(&Handle, &ClientId, &ObjectId) + Send + Sync;

/// What objects of the server do beside keeping what comes.
#[derive(Clone, Default)]
pub struct Doing {
    pub on_request: Option<Arc<OnRequest>>,
    pub on_destroyed: Option<Arc<OnDestroyed>>,
    pub on_bind: Option<Arc<OnDestroyed>>,
}

pub struct Object(pub Doing);

impl server::ObjectData<State> for Object {
    fn request(
        self: Arc<Self>,
        handle: &Handle,
        state: &mut State,
        client: ClientId,
        request: Message<ObjectId, OwnedFd>,
    ) -> Option<Arc<dyn server::ObjectData<State>>> {
        let came = Came::new(&request);
        if let Some(act) = &self.0.on_request {
            act(handle, state, &client, &request.sender_id, &came);
        }
        state.came.push(came);
        let makes = request
            .args
            .iter()
            .any(|it| matches!(it, Argument::NewId(_)));
        makes.then(|| Arc::new(Self(self.0.clone())) as Arc<dyn server::ObjectData<State>>)
    }

    fn destroyed(
        self: Arc<Self>,
        handle: &Handle,
        state: &mut State,
        client: ClientId,
        id: ObjectId,
    ) {
        state.destroyed += 1;
        if let Some(act) = &self.0.on_destroyed {
            act(handle, &client, &id);
        }
    }
}

pub struct Global(pub Doing);

impl server::GlobalHandler<State> for Global {
    fn bind(
        self: Arc<Self>,
        handle: &Handle,
        state: &mut State,
        client: ClientId,
        _: GlobalId,
        id: ObjectId,
    ) -> Arc<dyn server::ObjectData<State>> {
        if let Some(act) = &self.0.on_bind {
            act(handle, &client, &id);
        }
        state.bound.push(id);
        Arc::new(Object(self.0.clone()))
    }
}

/// Counts the ends of clients.
#[derive(Default)]
pub struct Ends {
    pub closed: AtomicUsize,
    pub errors: AtomicUsize,
}

impl Ends {
    pub fn count(&self) -> (usize, usize) {
        (
            self.closed.load(Ordering::SeqCst),
            self.errors.load(Ordering::SeqCst),
        )
    }
}

pub struct OfClient(pub Arc<Ends>);

impl server::ClientData for OfClient {
    fn disconnected(&self, _: ClientId, reason: DisconnectReason) {
        let count = match reason {
            DisconnectReason::ConnectionClosed => &self.0.closed,
            DisconnectReason::ProtocolError(_) => &self.0.errors,
        };
        count.fetch_add(1, Ordering::SeqCst);
    }
}

pub struct Server {
    pub backend: server::Backend<State>,
    pub state: State,
    pub ends: Arc<Ends>,
}

impl Server {
    pub fn new() -> Self {
        Self::doing(Doing::default())
    }

    pub fn doing(doing: Doing) -> Self {
        let backend = server::Backend::<State>::new().unwrap();
        backend
            .handle()
            .create_global::<State>(&SHAPE, 3, Arc::new(Global(doing)));
        Self {
            backend,
            state: State::default(),
            ends: Arc::default(),
        }
    }

    pub fn handle(&self) -> Handle {
        self.backend.handle()
    }

    /// A socket of a new client.
    pub fn accept(&mut self) -> (UnixStream, ClientId) {
        let (ours, theirs) = UnixStream::pair().unwrap();
        let id = self
            .handle()
            .insert_client(theirs, Arc::new(OfClient(self.ends.clone())))
            .unwrap();
        (ours, id)
    }

    pub fn dispatch(&mut self) -> usize {
        self.backend.dispatch_all_clients(&mut self.state).unwrap()
    }

    pub fn serve(&mut self) -> usize {
        let count = self.dispatch();
        self.backend.flush(None).unwrap();
        count
    }

    /// Takes what came.
    pub fn came(&mut self) -> Vec<Came> {
        std::mem::take(&mut self.state.came)
    }

    pub fn clients(&self) -> usize {
        let mut count = 0;
        self.handle().with_all_clients(|_| count += 1);
        count
    }

    pub fn event(
        &self,
        id: &ObjectId,
        opcode: u16,
        arguments: Vec<Argument<ObjectId, i32>>,
    ) -> bool {
        let event = Message {
            sender_id: id.clone(),
            opcode,
            args: arguments.into(),
        };
        self.handle().send_event(event).is_ok()
    }

    pub fn last_bound(&self) -> ObjectId {
        self.state.bound.last().unwrap().clone()
    }
}

// ---- a client

type OnClientDestroyed = dyn Fn(&ClientObjectId) + Send + Sync;
type OnEvent = dyn Fn(&Backend, &ClientObjectId, &Came) + Send + Sync;

/// What came to the objects of a client.
#[derive(Default)]
pub struct Inbox {
    pub came: Mutex<Vec<Came>>,
    pub destroyed: AtomicUsize,
    pub on_event: Option<Box<OnEvent>>,
    pub on_destroyed: Option<Box<OnClientDestroyed>>,
}

impl ClientObjectData for Inbox {
    fn event(
        self: Arc<Self>,
        backend: &Backend,
        event: Message<ClientObjectId, OwnedFd>,
    ) -> Option<Arc<dyn ClientObjectData>> {
        let came = Came::new(&event);
        if let Some(act) = &self.on_event {
            act(backend, &event.sender_id, &came);
        }
        self.came
            .lock()
            .unwrap_or_else(|it| it.into_inner())
            .push(came);
        let makes = event.args.iter().any(|it| matches!(it, Argument::NewId(_)));
        makes.then_some(self as Arc<dyn ClientObjectData>)
    }

    fn destroyed(&self, id: ClientObjectId) {
        self.destroyed.fetch_add(1, Ordering::SeqCst);
        if let Some(act) = &self.on_destroyed {
            act(&id);
        }
    }
}

pub struct Client {
    pub backend: Backend,
    pub inbox: Arc<Inbox>,
    pub registry: ClientObjectId,
    pub shape: ClientObjectId,
}

impl Client {
    /// Binds a shape; the server has not read it yet.
    pub fn new(socket: UnixStream) -> Self {
        Self::with(socket, Inbox::default())
    }

    pub fn with(socket: UnixStream, inbox: Inbox) -> Self {
        let (backend, inbox) = (Backend::connect(socket).unwrap(), Arc::new(inbox));
        let get = message!(backend.display_id(), 1, [new_id()]);
        let registry = backend
            .send_request(get, Some(Arc::new(Inbox::default())), None)
            .unwrap();
        let bind = message!(
            registry.clone(),
            0,
            [
                Argument::Uint(1),
                text("shape"),
                Argument::Uint(3),
                new_id()
            ]
        );
        let shape = backend
            .send_request(bind, Some(inbox.clone()), Some((&SHAPE, 3)))
            .unwrap();
        backend.flush().unwrap();
        Self {
            backend,
            inbox,
            registry,
            shape,
        }
    }

    pub fn request(
        &self,
        id: &ClientObjectId,
        opcode: u16,
        arguments: Vec<Argument<ClientObjectId, i32>>,
    ) -> Result<ClientObjectId, client::InvalidId> {
        let makes = arguments.iter().any(|it| matches!(it, Argument::NewId(_)));
        let data = makes.then(|| self.inbox.clone() as Arc<dyn ClientObjectData>);
        let request = Message {
            sender_id: id.clone(),
            opcode,
            args: arguments.into(),
        };
        self.backend.send_request(request, data, None)
    }

    pub fn number(&self, number: i32) {
        self.request(&self.shape, NUMBER, vec![Argument::Int(number)])
            .unwrap();
    }

    pub fn make(&self) -> ClientObjectId {
        self.request(&self.shape, MAKE, vec![new_id()]).unwrap()
    }

    pub fn flush(&self) {
        self.backend.flush().unwrap();
    }

    /// Prepares a reading. What other threads read has come to the inbox already.
    pub fn prepare(&self) -> ReadEventsGuard {
        loop {
            if let Some(guard) = self.backend.prepare_read() {
                return guard;
            }
            self.backend.dispatch_inner_queue().unwrap();
        }
    }

    /// Reads all that is there. Answers the number of events.
    pub fn read(&self) -> usize {
        match self.prepare().read() {
            Ok(count) => count,
            Err(error) if would_block(&error) => 0,
            Err(error) => panic!("{error}"),
        }
    }

    /// Takes what came.
    pub fn came(&self) -> Vec<Came> {
        std::mem::take(&mut self.inbox.came.lock().unwrap())
    }
}

/// A server with a client that has bound a shape.
pub fn pair() -> (Server, Client) {
    pair_doing(Doing::default(), Inbox::default())
}

pub fn pair_doing(doing: Doing, inbox: Inbox) -> (Server, Client) {
    let mut server = Server::doing(doing);
    let client = Client::with(server.accept().0, inbox);
    server.serve();
    client.read();
    (server, client)
}

/// Whether the server and the client that was the first to bind a shape do what they should.
pub fn works(server: &mut Server, client: &Client) -> bool {
    let first = server.state.bound[0].clone();
    works_with(server, client, &first)
}

/// Whether the server and a client do what they should; `shape` is the client's on the server.
pub fn works_with(server: &mut Server, client: &Client, shape: &ObjectId) -> bool {
    server.came();
    client.came();
    client.number(41);
    client.flush();
    server.serve();
    let is_sent = server.event(shape, NUMBER, vec![Argument::Int(42)]);
    server.serve();
    client.read();
    let has = |all: Vec<Came>, number| all.iter().any(|it| it.number == number);
    is_sent && has(server.came(), 41) && has(client.came(), 42)
}

pub fn would_block(error: &WaylandError) -> bool {
    matches!(error, WaylandError::Io(error) if error.kind() == std::io::ErrorKind::WouldBlock)
}

pub fn new_id<Fd>() -> Argument<ClientObjectId, Fd> {
    Argument::NewId(ClientObjectId::null())
}

pub fn text<Id, Fd>(text: &str) -> Argument<Id, Fd> {
    Argument::Str(Some(Box::new(CString::new(text).unwrap())))
}

/// A file that is known by its size.
pub fn file(size: u64) -> OwnedFd {
    let file = rustix::fs::memfd_create("sized", MemfdFlags::CLOEXEC).unwrap();
    rustix::fs::ftruncate(file.as_fd(), size).unwrap();
    file
}

pub fn fd<Id>(file: &OwnedFd) -> Argument<Id, i32> {
    Argument::Fd(file.as_raw_fd())
}

/// How many descriptors the process has open.
pub fn open_files() -> usize {
    std::fs::read_dir("/proc/self/fd").unwrap().count() - 1
}

/// Files of a bystander: were one of them closed by a second close of the same number, it would show.
pub struct Bystander(Vec<OwnedFd>);

impl Bystander {
    pub fn new() -> Self {
        Self((0..50).map(|number| file(100_000 + number)).collect())
    }

    pub fn is_untouched(&self) -> bool {
        self.0
            .iter()
            .zip(100_000..)
            .all(|(file, size)| rustix::fs::fstat(file).is_ok_and(|it| it.st_size == size))
    }
}
