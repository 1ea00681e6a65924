//! Ends of objects: the data of each are told once that it was destroyed, and are dropped when nobody can ask for them.

use std::os::fd::OwnedFd;
use std::sync::atomic::{AtomicUsize, Ordering};
use std::sync::{mpsc, Arc, Mutex};
use std::thread;

use wayland_backend::client::{self, Backend};
use wayland_backend::message;
use wayland_backend::protocol::{Argument, Message};
use wayland_backend::server::{self, ClientId, DisconnectReason, GlobalId, Handle, ObjectId};

use crate::pair::*;
use crate::table::*;
use crate::Checks;

pub fn run(checks: &mut Checks) {
    ended_by_its_request(checks);
    ended_by_another_thread(checks);
    ended_by_its_event(checks);
    dropped_when_free(checks);
}

/// How many data were made, told and dropped.
#[derive(Default)]
struct Counts {
    made: AtomicUsize,
    told: AtomicUsize,
    dropped: AtomicUsize,
}

impl Counts {
    fn get(&self) -> [usize; 3] {
        [&self.made, &self.told, &self.dropped].map(|count| count.load(Ordering::SeqCst))
    }
}

/// Data of an object, on either side.
struct Counted(Arc<Counts>);

impl Counted {
    fn new(counts: &Arc<Counts>) -> Arc<Self> {
        counts.made.fetch_add(1, Ordering::SeqCst);
        Arc::new(Self(counts.clone()))
    }

    fn tell(&self) {
        self.0.told.fetch_add(1, Ordering::SeqCst);
    }
}

impl Drop for Counted {
    fn drop(&mut self) {
        self.0.dropped.fetch_add(1, Ordering::SeqCst);
    }
}

impl server::ObjectData<()> for Counted {
    fn request(
        self: Arc<Self>,
        _: &Handle,
        _: &mut (),
        _: ClientId,
        _: Message<ObjectId, OwnedFd>,
    ) -> Option<Arc<dyn server::ObjectData<()>>> {
        None
    }

    fn destroyed(self: Arc<Self>, _: &Handle, _: &mut (), _: ClientId, _: ObjectId) {
        self.tell();
    }
}

impl client::ObjectData for Counted {
    fn event(
        self: Arc<Self>,
        _: &Backend,
        _: Message<client::ObjectId, OwnedFd>,
    ) -> Option<Arc<dyn client::ObjectData>> {
        None
    }

    fn destroyed(&self, _: client::ObjectId) {
        self.tell();
    }
}

/// The new id among these arguments.
fn created<Id: Clone>(arguments: &[Argument<Id, OwnedFd>]) -> Option<Id> {
    arguments.iter().find_map(|argument| match argument {
        Argument::NewId(id) => Some(id.clone()),
        _ => None,
    })
}

// ---- the server

type OnCreated = dyn Fn(&Handle, &ObjectId, &Arc<Counts>) + Send + Sync;

/// Does something to each object that a request or a bind makes, before it answers the object's data.
#[derive(Clone)]
struct Maker {
    counts: Arc<Counts>,
    on_made: Arc<OnCreated>,
    on_bound: Option<Arc<OnCreated>>,
}

impl server::ObjectData<()> for Maker {
    fn request(
        self: Arc<Self>,
        handle: &Handle,
        _: &mut (),
        _: ClientId,
        request: Message<ObjectId, OwnedFd>,
    ) -> Option<Arc<dyn server::ObjectData<()>>> {
        let object = created(&request.args)?;
        (self.on_made)(handle, &object, &self.counts);
        Some(Counted::new(&self.counts))
    }

    fn destroyed(self: Arc<Self>, _: &Handle, _: &mut (), _: ClientId, _: ObjectId) {}
}

impl server::GlobalHandler<()> for Maker {
    fn bind(
        self: Arc<Self>,
        handle: &Handle,
        _: &mut (),
        _: ClientId,
        _: GlobalId,
        object: ObjectId,
    ) -> Arc<dyn server::ObjectData<()>> {
        match &self.on_bound {
            Some(act) => {
                act(handle, &object, &self.counts);
                Counted::new(&self.counts)
            }
            None => self,
        }
    }
}

fn nothing(_: &Handle, _: &ObjectId, _: &Arc<Counts>) {}

fn destroy(handle: &Handle, object: &ObjectId, _: &Arc<Counts>) {
    handle.destroy_object::<()>(object).unwrap();
}

fn send_end(handle: &Handle, object: &ObjectId, _: &Arc<Counts>) {
    let end = message!(object.clone(), END, []);
    handle.send_event(end).unwrap();
}

fn give_and_destroy(handle: &Handle, object: &ObjectId, counts: &Arc<Counts>) {
    let data = Counted::new(counts);
    handle.set_object_data::<()>(object.clone(), data).unwrap();
    destroy(handle, object, counts);
}

fn give_and_end(handle: &Handle, object: &ObjectId, counts: &Arc<Counts>) {
    let data = Counted::new(counts);
    handle.set_object_data::<()>(object.clone(), data).unwrap();
    send_end(handle, object, counts);
}

fn kill(handle: &Handle, object: &ObjectId, _: &Arc<Counts>) {
    let client = handle.get_client(object.clone()).unwrap();
    handle.kill_client(client, DisconnectReason::ConnectionClosed);
}

fn destroy_elsewhere(handle: &Handle, object: &ObjectId, counts: &Arc<Counts>) {
    thread::scope(|scope| scope.spawn(|| destroy(handle, object, counts)).join()).unwrap();
}

/// A client makes so many objects. What is counted then, and when the client has gone.
fn counts_of(
    on_made: impl Fn(&Handle, &ObjectId, &Arc<Counts>) + Send + Sync + 'static,
    on_bound: Option<Arc<OnCreated>>,
    objects: usize,
) -> [[usize; 3]; 2] {
    let counts = Arc::new(Counts::default());
    let maker = Maker {
        counts: counts.clone(),
        on_made: Arc::new(on_made),
        on_bound,
    };
    let mut backend = server::Backend::<()>::new().unwrap();
    backend
        .handle()
        .create_global::<()>(&SHAPE, 3, Arc::new(maker));
    let (ours, theirs) = std::os::unix::net::UnixStream::pair().unwrap();
    let data = Arc::new(OfClient(Arc::default()));
    backend.handle().insert_client(theirs, data).unwrap();
    let client = Client::new(ours);
    for _ in 0..objects {
        client.make();
        client.flush();
        backend.dispatch_all_clients(&mut ()).unwrap();
        let _ = backend.flush(None);
    }
    backend.dispatch_all_clients(&mut ()).unwrap();
    let there = counts.get();
    drop(client);
    backend.dispatch_all_clients(&mut ()).unwrap();
    [there, counts.get()]
}

/// An object that ends before the handler of its request has returned.
fn ended_by_its_request(checks: &mut Checks) {
    checks.equal(
        "an object that a request makes is told of when its client has gone",
        counts_of(nothing, None, 1),
        [[1, 0, 0], [1, 1, 1]],
    );
    let cases: [(&str, Box<OnCreated>); 4] = [
        ("destroys", Box::new(destroy)),
        ("ends by an event", Box::new(send_end)),
        ("kills the client of", Box::new(kill)),
        ("has destroyed by a thread", Box::new(destroy_elsewhere)),
    ];
    for (what, act) in cases {
        checks.equal(
            &format!("one that its handler {what} is told of once"),
            counts_of(act, None, 1),
            [[1, 1, 1]; 2],
        );
    }
    let cases: [(&str, Box<OnCreated>); 2] = [
        ("destroys it", Box::new(give_and_destroy)),
        ("ends it by an event", Box::new(give_and_end)),
    ];
    for (what, act) in cases {
        checks.equal(
            &format!("if its handler {what} when it has given it data, these alone are told"),
            counts_of(act, None, 1),
            [[2, 1, 2]; 2],
        );
    }
    for act in [destroy, kill] {
        checks.equal(
            "an object that ends while it is bound is told of once",
            counts_of(nothing, Some(Arc::new(act)), 0),
            [[1, 1, 1]; 2],
        );
    }
}

/// Another thread ends objects while the handlers of their requests return.
fn ended_by_another_thread(checks: &mut Checks) {
    const OBJECTS: usize = 2000;
    let (made, objects) = mpsc::channel::<(Handle, ObjectId)>();
    let made = Mutex::new(made);
    let ending = thread::spawn(move || {
        for (handle, object) in objects {
            // The last ones may have ended with their client.
            let _ = handle.send_event(message!(object, END, []));
        }
    });
    let on_made = move |handle: &Handle, object: &ObjectId, _: &Arc<Counts>| {
        let made = made.lock().unwrap();
        made.send((handle.clone(), object.clone())).unwrap();
    };
    let [_, counts] = counts_of(on_made, None, OBJECTS);
    checks.equal(
        "each object that another thread ends is told of once",
        counts,
        [OBJECTS; 3],
    );
    checks.check("and the thread has not failed", ending.join().is_ok());
}

// ---- the client

type OnEventCreated = dyn Fn(&Backend, &client::ObjectId, &Arc<Counts>) + Send + Sync;

/// Does something to each object that an event makes, before it answers the object's data.
struct Taker {
    counts: Arc<Counts>,
    on_made: Box<OnEventCreated>,
}

impl client::ObjectData for Taker {
    fn event(
        self: Arc<Self>,
        backend: &Backend,
        event: Message<client::ObjectId, OwnedFd>,
    ) -> Option<Arc<dyn client::ObjectData>> {
        let object = created(&event.args)?;
        (self.on_made)(backend, &object, &self.counts);
        Some(Counted::new(&self.counts))
    }

    fn destroyed(&self, _: client::ObjectId) {}
}

/// The server makes an object for its first shape.
fn make_by_event(server: &mut Server, client: &Client) -> ObjectId {
    let bound = server.last_bound();
    let handle = server.handle();
    let of = handle.get_client(bound.clone()).unwrap();
    let object = handle
        .create_object::<State>(of, &SHAPE, 3, Arc::new(Object(Doing::default())))
        .unwrap();
    server.event(&bound, MAKE, vec![Argument::NewId(object.clone())]);
    server.serve();
    client.read();
    object
}

/// What is counted when an event has made an object, and when the server has used its number again.
fn counts_of_event(
    on_made: impl Fn(&Backend, &client::ObjectId, &Arc<Counts>) + Send + Sync + 'static,
) -> [[usize; 3]; 2] {
    let counts = Arc::new(Counts::default());
    let (mut server, client) = pair();
    let taker = Arc::new(Taker {
        counts: counts.clone(),
        on_made: Box::new(on_made),
    });
    client
        .backend
        .set_data(client.shape.clone(), taker)
        .unwrap();
    let object = make_by_event(&mut server, &client);
    let there = counts.get();
    let taker = Arc::new(Taker {
        counts: Arc::default(),
        on_made: Box::new(|_, _, _| ()),
    });
    client
        .backend
        .set_data(client.shape.clone(), taker)
        .unwrap();
    server.handle().destroy_object::<State>(&object).unwrap();
    let again = make_by_event(&mut server, &client);
    assert_eq!(again.protocol_id(), object.protocol_id());
    [there, counts.get()]
}

/// An object that ends before the callback of its event has returned. Its data are there until the number is used again.
fn ended_by_its_event(checks: &mut Checks) {
    checks.equal(
        "an object that its event's callback destroys is told of once",
        counts_of_event(|backend, object, _| backend.destroy_object(object).unwrap()),
        [[1, 1, 0], [1, 1, 1]],
    );
    checks.equal(
        "and so is one that it has destroyed by a thread",
        counts_of_event(|backend, object, _| {
            thread::scope(|scope| {
                let destroying = scope.spawn(|| backend.destroy_object(object).unwrap());
                destroying.join().unwrap();
            });
        }),
        [[1, 1, 0], [1, 1, 1]],
    );
    checks.equal(
        "if the callback destroys it when it has given it data, these alone are told",
        counts_of_event(|backend, object, counts| {
            let data = Counted::new(counts);
            backend.set_data(object.clone(), data).unwrap();
            backend.destroy_object(object).unwrap();
        }),
        [[2, 1, 1], [2, 1, 2]],
    );
    checks.equal(
        "if it destroys the object first, the data that it answers are",
        counts_of_event(|backend, object, counts| {
            backend.destroy_object(object).unwrap();
            let data = Counted::new(counts);
            backend.set_data(object.clone(), data).unwrap();
        }),
        [[2, 1, 1], [2, 1, 2]],
    );
}

/// Data are dropped by the reading that frees the number, also behind objects whose numbers the server keeps.
fn dropped_when_free(checks: &mut Checks) {
    const KEPT: usize = 20;
    const OBJECTS: usize = 1000;
    let counts = Arc::new(Counts::default());
    let (mut server, client) = pair();
    let make = || {
        let make = message!(client.shape.clone(), MAKE, [new_id()]);
        let data = Counted::new(&counts);
        client.backend.send_request(make, Some(data), None).unwrap()
    };
    let objects: Vec<_> = (0..KEPT + OBJECTS).map(|_| make()).collect();
    client.flush();
    server.serve();
    let (kept, ended) = objects.split_at(KEPT);
    for object in kept {
        client.backend.destroy_object(object).unwrap();
    }
    for object in ended {
        client.request(object, END, vec![]).unwrap();
    }
    for _ in 0..3 {
        server.event(&server.last_bound(), NUMBER, vec![Argument::Int(1)]);
        server.serve();
        client.read();
    }
    checks.equal(
        "the data of destroyed objects are kept while the server may use their numbers",
        counts.get(),
        [KEPT + OBJECTS, KEPT + OBJECTS, 0],
    );
    client.flush();
    server.serve();
    client.read();
    checks.equal(
        "and dropped by the reading that frees the numbers",
        counts.get(),
        [KEPT + OBJECTS, KEPT + OBJECTS, OBJECTS],
    );
    drop(objects);
    drop(client);
    checks.equal(
        "the others with the connection",
        counts.get(),
        [KEPT + OBJECTS; 3],
    );
}
