//! Threads that wait for events of one connection: none sleeps while another one has read what it waits for.

use std::sync::atomic::{AtomicBool, Ordering};
use std::sync::{mpsc, Arc, Barrier};
use std::thread;
use std::time::Duration;

use rustix::event::{poll, PollFd, PollFlags};
use wayland_backend::protocol::Argument;
use wayland_client::Connection;

use crate::pair::*;
use crate::table::*;
use crate::Checks;

pub fn run(checks: &mut Checks) {
    looks(checks);
    ends(checks);
    round_trips(checks);
}

/// Whether a reading can be prepared, which is given up.
fn is_prepared(client: &Client) -> bool {
    client.backend.prepare_read().is_some()
}

/// Calls it in another thread.
fn elsewhere<T: Send>(call: impl FnOnce() -> T + Send) -> T {
    thread::scope(|scope| scope.spawn(call).join().unwrap())
}

fn send(server: &mut Server) {
    server.event(&server.last_bound(), NUMBER, vec![Argument::Int(1)]);
    server.serve();
}

/// A thread is told that another one has read, until it has looked.
fn looks(checks: &mut Checks) {
    let (mut server, client) = pair();
    let look = || client.backend.dispatch_inner_queue().unwrap();
    let mut always = is_prepared(&client);
    for _ in 0..10 {
        send(&mut server);
        always &= client.backend.prepare_read().unwrap().read().is_ok() && is_prepared(&client);
    }
    checks.check("a thread that reads alone can always prepare", always);
    send(&mut server);
    checks.equal("another thread reads", elsewhere(|| client.read()), 1);
    look();
    checks.check(
        "then nothing is prepared, also if the thread has looked before it was told",
        !is_prepared(&client),
    );
    checks.check(
        "nor for a second queue of the thread",
        !is_prepared(&client),
    );
    look();
    checks.check("until it has looked", is_prepared(&client));
    let nothing = elsewhere(|| client.read());
    elsewhere(|| drop(client.prepare()));
    checks.check(
        "what another thread read in vain, or gave up, tells nothing",
        nothing == 0 && is_prepared(&client),
    );
}

/// The end of the connection is told as an event is: its socket may tell nothing.
fn ends(checks: &mut Checks) {
    let (server, client) = pair();
    server
        .handle()
        .post_error(server.last_bound(), 1, c"the end".into());
    let is_error = elsewhere(|| client.prepare().read().is_err());
    checks.check(
        "an end that another thread has read is told",
        is_error && !is_prepared(&client),
    );
}

struct Of;

/// Two threads do some round trips, many times. If the last answer for one of them is read by the other one between its look
/// at the queue and its reading, nothing else wakes it.
fn round_trips(checks: &mut Checks) {
    const RUNS: usize = 1800;
    let mut server = Server::new();
    let (socket, _) = server.accept();
    let is_over = Arc::new(AtomicBool::new(false));
    let over = is_over.clone();
    let serving = thread::spawn(move || {
        while !over.load(Ordering::SeqCst) {
            let fd = server.backend.poll_fd();
            let _ = poll(&mut [PollFd::from_borrowed_fd(fd, PollFlags::IN)], 20);
            server.dispatch();
            let _ = server.backend.flush(None);
        }
    });
    let connection = Connection::from_socket(socket).unwrap();
    let mut woken = 0;
    for _ in 0..RUNS {
        let (told, ended) = mpsc::channel();
        let barrier = Arc::new(Barrier::new(2));
        for _ in 0..2 {
            let (connection, told, barrier) = (connection.clone(), told.clone(), barrier.clone());
            thread::spawn(move || {
                let mut queue = connection.new_event_queue::<Of>();
                barrier.wait();
                for _ in 0..3 {
                    queue.roundtrip(&mut Of).unwrap();
                }
                let _ = told.send(());
            });
        }
        let wait = || ended.recv_timeout(Duration::from_secs(10)).is_ok();
        if !(wait() && wait()) {
            break;
        }
        woken += 1;
    }
    checks.equal(
        "no thread of 3600 that do round trips sleeps for ever",
        woken,
        RUNS,
    );
    is_over.store(true, Ordering::SeqCst);
    checks.check("and the server served them", serving.join().is_ok());
}
