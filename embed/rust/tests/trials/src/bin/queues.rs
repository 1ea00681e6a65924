//! One connection of wayland-client with many threads, each with an event queue of its own: it reads in four ways, beside a thread that
//! prepares readings and gives them up, and beside a queue that all threads send to.
//!
//! ```text
//! queues THREADS ROUNDS
//! ```

use std::os::unix::net::UnixStream;
use std::process::ExitCode;
use std::sync::atomic::{AtomicBool, AtomicUsize, Ordering::SeqCst};
use std::sync::Arc;
use std::thread::{self, JoinHandle};
use std::time::Duration;

use trials::counted::Checks;
use trials::process::{descriptors, wait_for};
use wayland_client::backend::WaylandError;
use wayland_client::protocol::wl_callback::{self, WlCallback};
use wayland_client::protocol::wl_output::{self, WlOutput};
use wayland_client::protocol::wl_registry::{self, WlRegistry};
use wayland_client::{Connection, Dispatch, EventQueue, QueueHandle};

/// How many events a new output gets before its `done`.
const SCALES: i32 = 50;

/// How a thread waits changes from round to round. In one of the ways it sends to the queue of all, too.
const WAYS: usize = 4;
const TO_SHARED: usize = 3;

mod server {
    use wayland_server::protocol::wl_output::{Request, WlOutput};
    use wayland_server::{Client, DataInit, Dispatch, DisplayHandle, GlobalDispatch, New};

    pub struct Server;

    impl GlobalDispatch<WlOutput, ()> for Server {
        fn bind(
            _: &mut Self,
            _: &DisplayHandle,
            _: &Client,
            new: New<WlOutput>,
            _: &(),
            init: &mut DataInit<'_, Self>,
        ) {
            let output = init.init(new, ());
            (0..super::SCALES).for_each(|it| output.scale(it));
            output.done();
        }
    }

    impl Dispatch<WlOutput, ()> for Server {
        fn request(
            _: &mut Self,
            _: &Client,
            _: &WlOutput,
            _: Request,
            _: &(),
            _: &DisplayHandle,
            _: &mut DataInit<'_, Self>,
        ) {
        }
    }
}

/// What came to a queue.
#[derive(Default)]
struct Came {
    globals: Vec<u32>,
    /// The number of answers, which come in the order of their questions.
    answers: usize,
    scales: i32,
    outputs: usize,
    wrong: Vec<String>,
}

impl Dispatch<WlRegistry, ()> for Came {
    fn event(
        came: &mut Self,
        _: &WlRegistry,
        event: wl_registry::Event,
        _: &(),
        _: &Connection,
        _: &QueueHandle<Self>,
    ) {
        if let wl_registry::Event::Global { name, .. } = event {
            came.globals.push(name);
        }
    }
}

impl Dispatch<WlCallback, usize> for Came {
    fn event(
        came: &mut Self,
        _: &WlCallback,
        _: wl_callback::Event,
        number: &usize,
        _: &Connection,
        _: &QueueHandle<Self>,
    ) {
        if *number != came.answers {
            came.wrong.push(format!("answer {number} comes after {} others", came.answers));
        }
        came.answers += 1;
    }
}

/// Of the queue that all send to.
impl Dispatch<WlCallback, ()> for Came {
    fn event(
        came: &mut Self,
        _: &WlCallback,
        _: wl_callback::Event,
        _: &(),
        _: &Connection,
        _: &QueueHandle<Self>,
    ) {
        came.answers += 1;
    }
}

impl Dispatch<WlOutput, ()> for Came {
    fn event(
        came: &mut Self,
        output: &WlOutput,
        event: wl_output::Event,
        _: &(),
        _: &Connection,
        _: &QueueHandle<Self>,
    ) {
        match event {
            wl_output::Event::Scale { factor } if factor == came.scales => came.scales += 1,
            wl_output::Event::Done if came.scales == SCALES => {
                came.scales = 0;
                came.outputs += 1;
                output.release();
            }
            other => came.wrong.push(format!("{other:?} comes after {} scales", came.scales)),
        }
    }
}

type Answer<T> = Result<T, Box<dyn std::error::Error + Send + Sync>>;

/// By hand, as an event loop does it.
fn read_by_hand(queue: &mut EventQueue<Came>, came: &mut Came) -> Answer<()> {
    queue.dispatch_pending(came)?;
    queue.flush()?;
    if let Some(guard) = queue.prepare_read() {
        wait_for(&[&guard.connection_fd()], 5);
        match guard.read() {
            Err(WaylandError::Io(error)) if error.kind() == std::io::ErrorKind::WouldBlock => {}
            other => drop(other?),
        }
    }
    queue.dispatch_pending(came)?;
    Ok(())
}

/// Reads until the answer of this round has come, in one of three ways.
fn wait_for_answer(
    way: usize,
    round: usize,
    queue: &mut EventQueue<Came>,
    came: &mut Came,
) -> Answer<()> {
    if way == 0 {
        queue.roundtrip(came)?;
    }
    while came.answers <= round {
        if way == 1 {
            read_by_hand(queue, came)?;
        } else {
            queue.blocking_dispatch(came)?;
        }
    }
    Ok(())
}

/// Binds an output, and reads by hand until that has told all.
fn wait_for_output(
    registry: &WlRegistry,
    queue: &mut EventQueue<Came>,
    came: &mut Came,
) -> Answer<()> {
    let global = *came.globals.first().ok_or("no global came")?;
    let wanted = came.outputs + 1;
    registry.bind::<WlOutput, _, _>(global, 3, &queue.handle(), ());
    while came.outputs < wanted {
        read_by_hand(queue, came)?;
    }
    Ok(())
}

/// What one thread does.
fn rounds(
    connection: &Connection,
    shared: &QueueHandle<Came>,
    thread: usize,
    count: usize,
) -> Answer<()> {
    let (mut queue, mut came) = (connection.new_event_queue::<Came>(), Came::default());
    let qh = queue.handle();
    let registry = connection.display().get_registry(&qh, ());
    queue.roundtrip(&mut came)?;
    for round in 0..count {
        connection.display().sync(&qh, round);
        let way = (round + thread) % WAYS;
        if way == TO_SHARED {
            connection.display().sync(shared, ());
            wait_for_output(&registry, &mut queue, &mut came)?;
        }
        wait_for_answer(way, round, &mut queue, &mut came)?;
    }
    if came.answers != count || !came.wrong.is_empty() {
        return Err(format!("{} answers, {:?}", came.answers, came.wrong).into());
    }
    // A queue may go while its events are under way.
    (0..20).for_each(|it| drop(connection.display().sync(&qh, it)));
    drop(queue);
    Ok(connection.flush()?)
}

fn serve(socket: UnixStream, is_over: Arc<AtomicBool>) -> JoinHandle<()> {
    thread::spawn(move || {
        let mut display = wayland_server::Display::<server::Server>::new().unwrap();
        display
            .handle()
            .create_global::<server::Server, wayland_server::protocol::wl_output::WlOutput, ()>(
                3,
                (),
            );
        display.handle().insert_client(socket, Arc::new(())).unwrap();
        while !is_over.load(SeqCst) {
            wait_for(&[&display], 20);
            display.dispatch_clients(&mut server::Server).unwrap();
            display.flush_clients().unwrap();
        }
    })
}

/// Answers what comes to the queue that all threads send to, until all that is wanted has come.
fn shared_queue(
    mut queue: EventQueue<Came>,
    wanted: usize,
    answers: Arc<AtomicUsize>,
) -> JoinHandle<()> {
    thread::spawn(move || {
        let mut came = Came::default();
        while came.answers < wanted && queue.blocking_dispatch(&mut came).is_ok() {
            answers.store(came.answers, SeqCst);
        }
    })
}

fn give_up_readings(connection: Connection, is_over: Arc<AtomicBool>) -> JoinHandle<()> {
    thread::spawn(move || {
        while !is_over.load(SeqCst) {
            drop(connection.prepare_read());
            thread::sleep(Duration::from_micros(200));
        }
    })
}

/// How often the threads send to the shared queue.
fn sent_to_shared(threads: usize, count: usize) -> usize {
    (0..threads)
        .map(|thread| (0..count).filter(|round| (round + thread) % WAYS == TO_SHARED).count())
        .sum()
}

fn run(checks: &mut Checks, threads: usize, count: usize) {
    let (ours, theirs) = UnixStream::pair().unwrap();
    let (is_over, answers) = (Arc::new(AtomicBool::new(false)), Arc::new(AtomicUsize::new(0)));
    let server = serve(theirs, is_over.clone());
    let connection = Connection::from_socket(ours).unwrap();
    let shared = connection.new_event_queue::<Came>();
    let (handle, wanted) = (shared.handle(), sent_to_shared(threads, count));
    let shared = shared_queue(shared, wanted, answers.clone());
    let gives_up = give_up_readings(connection.clone(), is_over.clone());
    let all: Vec<_> = (0..threads)
        .map(|thread| {
            let (connection, handle) = (connection.clone(), handle.clone());
            thread::spawn(move || {
                rounds(&connection, &handle, thread, count).map_err(|it| it.to_string())
            })
        })
        .collect();
    for (thread, it) in all.into_iter().enumerate() {
        let answer = it.join().unwrap_or_else(|_| Err("it panics".into()));
        checks.equal(&format!("thread {thread} of {threads} got all in order"), answer, Ok(()));
    }
    shared.join().unwrap();
    checks.equal("the queue that all send to got all", answers.load(SeqCst), wanted);
    is_over.store(true, SeqCst);
    gives_up.join().unwrap();
    server.join().unwrap();
}

fn main() -> ExitCode {
    let words: Vec<usize> =
        std::env::args().skip(1).map(|it| it.parse().expect("a number")).collect();
    let [threads, count] = words[..] else { panic!("usage: queues THREADS ROUNDS") };
    let mut checks = Checks::default();
    let before = descriptors();
    run(&mut checks, threads, count);
    checks.equal("no descriptor is left", descriptors(), before);
    checks.end()
}
