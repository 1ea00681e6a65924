//! Binds all globals, sends all requests, and asks for the events.

use std::ffi::CString;
use std::os::fd::OwnedFd;
use std::os::unix::net::UnixStream;
use std::sync::{Arc, Mutex};

use trials::arguments::{child, made, told, Objects};
use trials::process::{descriptors, wait_for};
use wayland_backend::client::{Backend, ObjectData, ObjectId, WaylandError};
use wayland_backend::protocol::{Argument, ArgumentType, Interface, Message};

use crate::plan::{self, Step};
use crate::server::EVENTS_AT_ONCE;

/// The original has room for 28 descriptors in what it flushes at once.
const REQUESTS_IN_A_FLUSH: usize = 8;

const SYNC: u16 = 0;
const GET_REGISTRY: u16 = 1;
const BIND: u16 = 0;

#[derive(Default)]
struct Told {
    lines: Vec<String>,
    globals: Vec<(u32, String, u32)>,
    answered: usize,
}

struct Object(Arc<Mutex<Told>>);

impl ObjectData for Object {
    fn event(
        self: Arc<Self>,
        backend: &Backend,
        event: Message<ObjectId, OwnedFd>,
    ) -> Option<Arc<dyn ObjectData>> {
        let name = event.sender_id.interface().events[event.opcode as usize].name;
        let new = child(&event.args);
        let known = new.as_ref().map(|it| described(backend, it));
        let mut told_so_far = self.0.lock().unwrap();
        if let [Argument::Uint(number), Argument::Str(Some(text)), Argument::Uint(version)] =
            &event.args[..]
        {
            if event.sender_id.interface().name == "wl_registry" {
                told_so_far.globals.push((*number, text.to_str().unwrap().into(), *version));
            }
        }
        told_so_far.lines.push(format!(
            "event {} {name}({}) {known:?}",
            described(backend, &event.sender_id),
            told(&event.args)
        ));
        drop(told_so_far);
        new.map(|_| self as Arc<dyn ObjectData>)
    }

    fn destroyed(&self, id: ObjectId) {
        self.0.lock().unwrap().lines.push(format!("destroyed {id}"));
    }
}

/// Counts the answers to `sync`.
struct Answer(Arc<Mutex<Told>>);

impl ObjectData for Answer {
    fn event(
        self: Arc<Self>,
        _: &Backend,
        _: Message<ObjectId, OwnedFd>,
    ) -> Option<Arc<dyn ObjectData>> {
        self.0.lock().unwrap().answered += 1;
        None
    }

    fn destroyed(&self, _: ObjectId) {}
}

/// What the client knows of an object.
fn described(backend: &Backend, id: &ObjectId) -> String {
    match backend.info(id.clone()) {
        Ok(info) => {
            format!("{id} number {} {} version {}", info.id, info.interface.name, info.version)
        }
        Err(_) => format!("{id} unknown"),
    }
}

struct Client {
    backend: Backend,
    told: Arc<Mutex<Told>>,
    registry: ObjectId,
    bound: Vec<Vec<ObjectId>>,
    cannot: usize,
}

struct OfClient<'a> {
    client: &'a Client,
    sender: &'a ObjectId,
}

impl Objects<ObjectId> for OfClient<'_> {
    fn null(&self) -> ObjectId {
        ObjectId::null()
    }

    fn with(&self, interface: Option<&'static Interface>) -> Option<ObjectId> {
        let Some(interface) = interface else { return Some(self.sender.clone()) };
        let place = plan::interfaces().iter().position(|it| it.name == interface.name)?;
        Some(self.client.bound[place][0].clone())
    }

    fn create(&mut self, _: &'static Interface) -> ObjectId {
        ObjectId::null()
    }
}

/// The path of a socket is there before the server listens.
fn connected(path: &str) -> UnixStream {
    for _ in 0..500 {
        if let Ok(socket) = UnixStream::connect(path) {
            return socket;
        }
        std::thread::sleep(std::time::Duration::from_millis(20));
    }
    panic!("no server listens at {path}");
}

impl Client {
    fn new(path: &str) -> Self {
        let backend = Backend::connect(connected(path)).unwrap();
        let told = Arc::<Mutex<Told>>::default();
        let get = wayland_backend::message!(
            backend.display_id(),
            GET_REGISTRY,
            [Argument::NewId(ObjectId::null())]
        );
        let registry =
            backend.send_request(get, Some(Arc::new(Object(told.clone()))), None).unwrap();
        let client = Self { backend, told, registry, bound: Vec::new(), cannot: 0 };
        client.round_trip();
        client
    }

    fn say(&self, line: String) {
        self.told.lock().unwrap().lines.push(line);
    }

    fn object(&self) -> Arc<dyn ObjectData> {
        Arc::new(Object(self.told.clone()))
    }

    fn bind(&self, place: usize) -> ObjectId {
        let interface = plan::interfaces()[place];
        let (number, name, version) = self.told.lock().unwrap().globals[place].clone();
        assert_eq!((name.as_str(), version), (interface.name, interface.version));
        let name = Argument::Str(Some(Box::new(CString::new(name).unwrap())));
        let new = Argument::NewId(ObjectId::null());
        let bind = wayland_backend::message!(
            self.registry.clone(),
            BIND,
            [Argument::Uint(number), name, Argument::Uint(version), new]
        );
        self.backend.send_request(bind, Some(self.object()), Some((interface, version))).unwrap()
    }

    fn send(&mut self, step: Step) {
        let sender = self.bound[step.interface][step.object].clone();
        let message = &sender.interface().requests[step.opcode as usize];
        let name = message.name;
        let Some(made) = made(message, step.round, &mut OfClient { client: self, sender: &sender })
        else {
            self.cannot += 1;
            self.say(format!("cannot send {sender} {name}"));
            return;
        };
        // What an object's interface and version are may be said, or follows from the message.
        let version = self.backend.info(sender.clone()).unwrap().version;
        let child = message.child_interface.map(|it| (it, version)).filter(|_| step.round == 1);
        let makes = message.signature.contains(&ArgumentType::NewId);
        let request =
            Message { sender_id: sender.clone(), opcode: step.opcode, args: made.arguments.into() };
        let answer = self.backend.send_request(request, makes.then(|| self.object()), child);
        let answer = answer.map(|id| described(&self.backend, &id));
        self.say(format!(
            "request {sender} {name}: {answer:?}, then {}",
            described(&self.backend, &sender)
        ));
    }

    fn round_trip(&self) {
        let wanted = self.told.lock().unwrap().answered + 1;
        let sync = wayland_backend::message!(
            self.backend.display_id(),
            SYNC,
            [Argument::NewId(ObjectId::null())]
        );
        self.backend.send_request(sync, Some(Arc::new(Answer(self.told.clone()))), None).unwrap();
        while self.told.lock().unwrap().answered < wanted {
            self.backend.flush().unwrap();
            self.read();
        }
    }

    fn read(&self) {
        let Some(guard) = self.backend.prepare_read() else { return };
        wait_for(&[&guard.connection_fd()], 10_000);
        match guard.read() {
            Err(WaylandError::Io(error)) if error.kind() == std::io::ErrorKind::WouldBlock => {}
            read => drop(read.unwrap()),
        }
    }
}

pub fn ask(path: &str) {
    let before = descriptors();
    let mut client = Client::new(path);
    for (place, interface) in plan::interfaces().iter().enumerate() {
        let bound = (0..plan::objects(interface)).map(|_| client.bind(place)).collect();
        client.bound.push(bound);
        client.round_trip();
    }
    for (count, step) in plan::requests().into_iter().enumerate() {
        client.send(step);
        if count % REQUESTS_IN_A_FLUSH == 0 {
            client.round_trip();
        }
    }
    let events = plan::events().len();
    for _ in 0..events.div_ceil(EVENTS_AT_ONCE) {
        client.bind(0);
        client.round_trip();
        // The events were sent after the answer to the first one, or before it.
        client.round_trip();
    }
    println!("{}", client.told.lock().unwrap().lines.join("\n"));
    println!(
        "cannot send {}, error {:?}",
        client.cannot,
        client.backend.last_error().map(|it| it.to_string())
    );
    let interfaces = plan::interfaces();
    let count = |of: fn(&Interface) -> usize| interfaces.iter().map(|it| of(it)).sum::<usize>();
    println!("{} files, left out {:?}", trials::protocols::FILES, trials::protocols::LEFT_OUT);
    println!(
        "{} interfaces, {} requests, {} events",
        interfaces.len(),
        count(|it| it.requests.len()),
        count(|it| it.events.len())
    );
    drop(client);
    println!("descriptors that are left: {}", descriptors() - before);
}
