//! Event queues of wayland-client, each in a thread, over one connection.

use std::sync::atomic::{AtomicBool, Ordering};
use std::sync::Arc;
use std::thread;
use std::time::Duration;

use rustix::event::{poll, PollFd, PollFlags};
use wayland_client::protocol::{wl_callback, wl_registry};
use wayland_client::{Connection, Dispatch, QueueHandle};

use crate::pair::Server;
use crate::Checks;

#[derive(Default)]
struct Of {
    done: usize,
    globals: usize,
}

impl Dispatch<wl_callback::WlCallback, ()> for Of {
    fn event(
        state: &mut Self,
        _: &wl_callback::WlCallback,
        _: wl_callback::Event,
        _: &(),
        _: &Connection,
        _: &QueueHandle<Self>,
    ) {
        state.done += 1;
    }
}

impl Dispatch<wl_registry::WlRegistry, ()> for Of {
    fn event(
        state: &mut Self,
        _: &wl_registry::WlRegistry,
        _: wl_registry::Event,
        _: &(),
        _: &Connection,
        _: &QueueHandle<Self>,
    ) {
        state.globals += 1;
    }
}

pub fn run(checks: &mut Checks) {
    const SYNCS: usize = 500;
    let mut server = Server::new();
    let (socket, _) = server.accept();
    let is_over = Arc::new(AtomicBool::new(false));
    let over = is_over.clone();
    let serving = thread::spawn(move || {
        while !over.load(Ordering::SeqCst) {
            let fd = server.backend.poll_fd();
            let _ = poll(&mut [PollFd::from_borrowed_fd(fd, PollFlags::IN)], 20);
            server.dispatch();
            let _ = server.backend.flush(None);
        }
    });
    let connection = Connection::from_socket(socket).unwrap();
    let threads: Vec<_> = (0..6)
        .map(|part| {
            let connection = connection.clone();
            thread::spawn(move || {
                let mut queue = connection.new_event_queue::<Of>();
                let (handle, display) = (queue.handle(), connection.display());
                let mut state = Of::default();
                let _registry = display.get_registry(&handle, ());
                for number in 1..=SYNCS {
                    display.sync(&handle, ());
                    if part % 2 == 0 {
                        queue.roundtrip(&mut state).unwrap();
                    } else {
                        while state.done < number {
                            queue.blocking_dispatch(&mut state).unwrap();
                        }
                    }
                }
                (state.done, state.globals)
            })
        })
        .collect();
    // wayland-client looks at its queue before it prepares a reading, and not again: an event that another thread reads in
    // between wakes nobody. So something comes now and then.
    let queue = connection.new_event_queue::<Of>();
    while threads.iter().any(|it| !it.is_finished()) {
        connection.display().sync(&queue.handle(), ());
        let _ = connection.flush();
        thread::sleep(Duration::from_millis(20));
    }
    let counts: Vec<_> = threads.into_iter().map(|it| it.join().ok()).collect();
    checks.equal(
        "six queues in six threads each get their own events",
        counts,
        vec![Some((SYNCS, 1)); 6],
    );
    is_over.store(true, Ordering::SeqCst);
    checks.check("and the server served them", serving.join().is_ok());
    checks.check(
        "and then the connection ends with an error",
        connection.roundtrip().is_err(),
    );
}
