//! A global for each interface. When the client says so, by binding the first global once more, the next events are sent.

use std::os::fd::OwnedFd;
use std::os::unix::net::UnixListener;
use std::sync::{Arc, Mutex};

use trials::arguments::{child, made, told, Objects};
use trials::process::{descriptors, wait_for};
use wayland_backend::protocol::{Interface, Message};
use wayland_backend::server::{
    Backend, ClientData, ClientId, DisconnectReason, GlobalHandler, GlobalId, Handle, ObjectData,
    ObjectId,
};

use crate::plan::{self, Step};

/// How many events are sent at once.
pub const EVENTS_AT_ONCE: usize = 40;
/// The original has room for 28 descriptors in what it flushes at once.
const EVENTS_IN_A_FLUSH: usize = 8;

#[derive(Default)]
struct State {
    lines: Vec<String>,
    /// By interface, in the order of their binding.
    bound: Vec<Vec<ObjectId>>,
    is_asked: bool,
    destroyed: Vec<String>,
}

struct Global(usize);

impl GlobalHandler<State> for Global {
    fn bind(
        self: Arc<Self>,
        handle: &Handle,
        state: &mut State,
        _: ClientId,
        _: GlobalId,
        id: ObjectId,
    ) -> Arc<dyn ObjectData<State>> {
        state.lines.push(format!("bound {}", described(handle, &id)));
        let place = self.0;
        let wanted = plan::objects(plan::interfaces()[place]);
        if state.bound[place].len() < wanted {
            state.bound[place].push(id);
        } else {
            state.is_asked = true;
        }
        Arc::new(Object)
    }
}

struct Object;

impl ObjectData<State> for Object {
    fn request(
        self: Arc<Self>,
        handle: &Handle,
        state: &mut State,
        client: ClientId,
        request: Message<ObjectId, OwnedFd>,
    ) -> Option<Arc<dyn ObjectData<State>>> {
        let sender = &request.sender_id;
        let name = sender.interface().requests[request.opcode as usize].name;
        let new = child(&request.args);
        let known = new.as_ref().map(|it| {
            (described(handle, it), handle.get_client(it.clone()).is_ok_and(|it| it == client))
        });
        let sender = described(handle, sender);
        state.lines.push(format!("request {sender} {name}({}) {known:?}", told(&request.args)));
        new.map(|_| self as Arc<dyn ObjectData<State>>)
    }

    fn destroyed(self: Arc<Self>, handle: &Handle, state: &mut State, _: ClientId, id: ObjectId) {
        state.destroyed.push(format!("destroyed {id}, {}", described(handle, &id)));
    }
}

/// What the server knows of an object.
fn described(handle: &Handle, id: &ObjectId) -> String {
    match handle.object_info(id.clone()) {
        Ok(info) => {
            format!("{id} number {} {} version {}", info.id, info.interface.name, info.version)
        }
        Err(_) => format!("{id} unknown"),
    }
}

#[derive(Default)]
struct Client(Mutex<Vec<String>>);

impl ClientData for Client {
    fn initialized(&self, _: ClientId) {
        self.0.lock().unwrap().push("initialized".into());
    }

    fn disconnected(&self, _: ClientId, reason: DisconnectReason) {
        self.0.lock().unwrap().push(format!("disconnected: {reason:?}"));
    }
}

struct Server {
    backend: Backend<State>,
    state: State,
    client: ClientId,
    told: Arc<Client>,
    cannot: usize,
}

struct OfServer<'a> {
    server: &'a Server,
    sender: &'a ObjectId,
}

impl Objects<ObjectId> for OfServer<'_> {
    fn null(&self) -> ObjectId {
        ObjectId::null()
    }

    fn with(&self, interface: Option<&'static Interface>) -> Option<ObjectId> {
        let Some(interface) = interface else { return Some(self.sender.clone()) };
        let place = plan::interfaces().iter().position(|it| it.name == interface.name)?;
        Some(self.server.state.bound[place][0].clone())
    }

    fn create(&mut self, interface: &'static Interface) -> ObjectId {
        let handle = self.server.backend.handle();
        let version =
            handle.object_info(self.sender.clone()).unwrap().version.min(interface.version);
        handle
            .create_object::<State>(
                self.server.client.clone(),
                interface,
                version,
                Arc::new(Object),
            )
            .unwrap()
    }
}

impl Server {
    fn new(path: &str) -> Self {
        let listener = UnixListener::bind(path).unwrap();
        let backend = Backend::<State>::new().unwrap();
        let mut handle = backend.handle();
        let interfaces = plan::interfaces();
        for (place, interface) in interfaces.iter().enumerate() {
            let name = handle.create_global::<State>(
                interface,
                interface.version,
                Arc::new(Global(place)),
            );
            let info = handle.global_info(name).unwrap();
            assert_eq!(
                (info.interface.name, info.version, info.disabled),
                (interface.name, interface.version, false)
            );
        }
        let state = State { bound: vec![Vec::new(); interfaces.len()], ..State::default() };
        let told = Arc::new(Client::default());
        let client = handle.insert_client(listener.accept().unwrap().0, told.clone()).unwrap();
        Self { backend, state, client, told, cannot: 0 }
    }

    fn has_client(&self) -> bool {
        self.told.0.lock().unwrap().len() < 2
    }

    fn send(&mut self, step: Step) {
        let sender = self.state.bound[step.interface][step.object].clone();
        let message = &sender.interface().events[step.opcode as usize];
        let name = message.name;
        let Some(made) = made(message, step.round, &mut OfServer { server: self, sender: &sender })
        else {
            self.cannot += 1;
            self.state.lines.push(format!("cannot send {sender} {name}"));
            return;
        };
        let event =
            Message { sender_id: sender.clone(), opcode: step.opcode, args: made.arguments.into() };
        let answer = self.backend.handle().send_event(event);
        self.state.lines.push(format!("event {sender} {name}: {answer:?}"));
    }

    fn send_some(&mut self, steps: &mut impl Iterator<Item = Step>) {
        for (count, step) in steps.take(EVENTS_AT_ONCE).enumerate() {
            self.send(step);
            if count % EVENTS_IN_A_FLUSH == 0 {
                self.backend.flush(None).unwrap();
            }
        }
    }

    fn tell_objects(&mut self) {
        let mut all = Vec::new();
        self.backend
            .handle()
            .with_all_objects_for(self.client.clone(), |id| all.push(id.to_string()))
            .unwrap();
        all.sort();
        self.state.lines.push(format!("objects {}", all.join(" ")));
    }
}

pub fn serve(path: &str) {
    let before = descriptors();
    let mut server = Server::new(path);
    let mut events = plan::events().into_iter();
    let mut is_first = true;
    while server.has_client() {
        wait_for(&[&server.backend.poll_fd()], 10_000);
        server.backend.dispatch_all_clients(&mut server.state).unwrap();
        if std::mem::take(&mut server.state.is_asked) {
            std::mem::take(&mut is_first).then(|| server.tell_objects());
            server.send_some(&mut events);
        }
        server.backend.flush(None).unwrap();
    }
    let State { lines, mut destroyed, .. } = std::mem::take(&mut server.state);
    destroyed.sort();
    println!("{}\n{}\n{:?}", lines.join("\n"), destroyed.join("\n"), server.told.0.lock().unwrap());
    println!("cannot send {}", server.cannot);
    drop(server);
    println!("descriptors that are left: {}", descriptors() - before);
}
