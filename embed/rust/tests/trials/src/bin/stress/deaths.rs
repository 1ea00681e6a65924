//! Ways for a client to die. Each begins with what a client binds at first.

use std::io::Read;
use std::net::Shutdown;
use std::os::unix::net::UnixStream;
use std::thread::sleep;
use std::time::Duration;

use trials::by_hand::{bind, message, send, words, Random};

type Way = (&'static str, fn(&str, &mut Random));

pub const WAYS: [Way; 14] = [
    ("with nothing sent", |path, _| drop(connected(path))),
    ("within a header", |path, random| of_start(path, random, |it| it.truncate(3))),
    ("within a message", |path, random| of_start(path, random, |it| it.truncate(it.len() - 5))),
    ("before the answers", |path, _| {
        let socket = started(path);
        (9..59).for_each(|id| send(&socket, &sync(id), 0));
    }),
    ("with events unread", |path, random| of_start(path, random, |_| ())),
    ("with a descriptor under way", |path, _| send(&started(path), &pool(9), 1)),
    ("between a descriptor and its message", |path, random| {
        let socket = started(path);
        send(&socket, &pool(9)[..10], 1);
        pause(random);
    }),
    ("with no descriptor", |path, random| {
        let socket = started(path);
        send(&socket, &pool(9), 0);
        pause(random);
    }),
    ("with 28 descriptors that nobody takes", |path, random| {
        let socket = started(path);
        send(&socket, &sync(9), 28);
        pause(random);
    }),
    ("by noise", |path, random| {
        let noise: Vec<u8> = (0..300).map(|_| random.below(256) as u8).collect();
        let socket = connected(path);
        send(&socket, &noise, 2);
        pause(random);
    }),
    ("half closed", |path, random| {
        let socket = started(path);
        let _ = socket.shutdown(Shutdown::Write);
        pause(random);
    }),
    ("with frames unread", |path, random| {
        let socket = started(path);
        for id in 0..100 {
            send(
                &socket,
                &[message(3, 0, &words(&[9 + id])), message(9 + id, 3, &words(&[109 + id]))]
                    .concat(),
                0,
            );
        }
        sleep(Duration::from_millis(random.below(30)));
    }),
    ("by an object that is not there", |path, random| {
        let socket = started(path);
        send(&socket, &message(77, 0, &[]), 0);
        pause(random);
    }),
    ("after some reading", |path, random| {
        let mut socket = started(path);
        let _ = socket.set_read_timeout(Some(Duration::from_millis(20)));
        let mut bytes = [0; 4096];
        (0..random.below(20)).all(|_| socket.read(&mut bytes).is_ok());
    }),
];

fn connected(path: &str) -> UnixStream {
    UnixStream::connect(path).expect("the server accepts")
}

/// 2 is the registry, 3 the compositor, 4 wl_shm, 5 the seat, 6 the manager, 7 a data device, 8 a keyboard.
fn start() -> Vec<u8> {
    [
        message(1, 1, &words(&[2])),
        bind(2, 1, "wl_compositor", 4, 3),
        bind(2, 2, "wl_shm", 1, 4),
        bind(2, 3, "wl_seat", 5, 5),
        bind(2, 4, "wl_data_device_manager", 3, 6),
        message(6, 1, &words(&[7, 5])),
        message(5, 1, &words(&[8])),
    ]
    .concat()
}

fn started(path: &str) -> UnixStream {
    let socket = connected(path);
    send(&socket, &start(), 0);
    socket
}

fn of_start(path: &str, random: &mut Random, change: fn(&mut Vec<u8>)) {
    let (socket, mut bytes) = (connected(path), start());
    change(&mut bytes);
    send(&socket, &bytes, 0);
    pause(random);
}

fn sync(id: u32) -> Vec<u8> {
    message(1, 0, &words(&[id]))
}

fn pool(id: u32) -> Vec<u8> {
    message(4, 0, &words(&[id, 4096]))
}

fn pause(random: &mut Random) {
    sleep(Duration::from_micros(random.below(3000)));
}
