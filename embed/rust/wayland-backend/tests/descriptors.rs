//! Descriptors on the server's side: each arrives where it belongs, and is closed once. These tests count what the process
//! has open, so they run one after another, and beside no other test.

#[path = "server/peer.rs"]
#[allow(dead_code)]
mod peer;
#[path = "server/program.rs"]
#[allow(dead_code)]
mod program;

use std::fs::File;
use std::io::{Read, Write};
use std::os::fd::{AsFd, AsRawFd, OwnedFd};
use std::os::unix::net::UnixStream;
use std::sync::{Mutex, MutexGuard, PoisonError};

use peer::message;
use program::{maker, Object, Server, MAKER};
use wayland_backend::message;
use wayland_backend::protocol::Argument;
use wayland_backend::server::{DisconnectReason, InvalidId};

static ALONE: Mutex<()> = Mutex::new(());

fn alone() -> MutexGuard<'static, ()> {
    ALONE.lock().unwrap_or_else(PoisonError::into_inner)
}

fn open_descriptors() -> usize {
    std::fs::read_dir("/proc/self/fd").unwrap().count()
}

/// A descriptor that can be told by what was written into it.
fn pipe_with(text: &str) -> OwnedFd {
    let (reader, mut writer) = UnixStream::pair().unwrap();
    writer.write_all(text.as_bytes()).unwrap();
    reader.into()
}

fn text_in(pipe: OwnedFd) -> String {
    let mut text = String::new();
    File::from(pipe).read_to_string(&mut text).unwrap();
    text
}

/// A server whose makers write down what is in each descriptor that they take, and give one back.
fn server() -> Server {
    Server::with_maker(|| {
        Object::handling("maker", |handle, program, _, message| {
            for arg in message.args {
                if let Argument::Fd(fd) = arg {
                    program.log.push(text_in(fd));
                    let back = pipe_with("back");
                    let id = message.sender_id.clone();
                    let event = message!(id, maker::GIVEN, [Argument::Fd(back.as_raw_fd())]);
                    handle.send_event(event).unwrap();
                }
            }
            None
        })
    })
}

fn texts_of(server: &mut Server) -> Vec<String> {
    let log = server.program.take_log();
    log.into_iter()
        .filter(|line| line.starts_with("pipe"))
        .collect()
}

fn numbered(count: usize) -> Vec<String> {
    (0..count).map(|at| format!("pipe {at}")).collect()
}

#[test]
fn descriptors_arrive_in_both_directions() {
    let _alone = alone();
    let before = open_descriptors();
    {
        let mut server = server();
        let (mut peer, _, _) = server.connect_and_bind();
        for _ in 0..3 {
            let pipes: Vec<_> = numbered(28).iter().map(|text| pipe_with(text)).collect();
            let borrowed: Vec<_> = pipes.iter().map(|pipe| pipe.as_fd()).collect();
            peer.send_bytes(&message(3, maker::TAKE, &[]).repeat(28), &borrowed);
        }
        server.round();
        let expected = [numbered(28), numbered(28), numbered(28)].concat();
        assert_eq!(texts_of(&mut server), expected);
        assert_eq!(peer.events().len(), 84);
        assert_eq!(peer.descriptors.len(), 84);
        for pipe in peer.descriptors.drain(..) {
            assert_eq!(text_in(pipe), "back");
        }
        drop(peer);
        server.round();
    }
    assert_eq!(open_descriptors(), before);
}

/// A client that has many to send sends them before the messages, 28 with one byte each time.
#[test]
fn descriptors_may_come_long_before_their_messages() {
    let _alone = alone();
    let before = open_descriptors();
    {
        let mut server = server();
        let (mut peer, _, _) = server.connect_and_bind();
        let stream = message(3, maker::TAKE, &[]).repeat(140);
        let pipes: Vec<_> = numbered(140).iter().map(|text| pipe_with(text)).collect();
        for (byte, pipes) in stream.iter().zip(pipes.chunks(28)) {
            let borrowed: Vec<_> = pipes.iter().map(|pipe| pipe.as_fd()).collect();
            peer.send_bytes(&[*byte], &borrowed);
            server.round();
        }
        peer.send_bytes(&stream[5..], &[]);
        server.round();
        assert_eq!(texts_of(&mut server), numbered(140));
        assert_eq!(peer.events().len(), 140);
    }
    assert_eq!(open_descriptors(), before);
}

#[test]
fn descriptors_that_nobody_gets_are_closed() {
    let _alone = alone();
    let before = open_descriptors();
    {
        let mut server = server();
        let pipe = pipe_with("");
        let take = message(3, maker::TAKE, &[]);
        // Of a message that is refused, one too many.
        let (peer, _, _) = server.connect_and_bind();
        peer.send_bytes(
            &message(77, maker::TAKE, &[]),
            &[pipe.as_fd(), pipe.as_fd()],
        );
        server.round();
        drop(peer);
        // Of a message that is not whole when its client goes.
        let (peer, _, _) = server.connect_and_bind();
        peer.send_bytes(&take[..4], &[pipe.as_fd()]);
        server.round();
        drop(peer);
        server.round();
        // The pipe is there, and what the server waits with.
        assert_eq!(open_descriptors(), before + 2);
        // Of an event to a client that is killed, and of one that is never sent.
        let (_peer, client, _) = server.connect_and_bind();
        let handle = server.handle();
        let id = handle
            .object_for_protocol_id(client.clone(), &MAKER, 3)
            .unwrap();
        let event = || message!(id.clone(), maker::GIVEN, [Argument::Fd(pipe.as_raw_fd())]);
        handle.send_event(event()).unwrap();
        handle.kill_client(client, DisconnectReason::ConnectionClosed);
        handle.send_event(event()).unwrap();
    }
    assert_eq!(open_descriptors(), before);
}

/// The client's descriptors do not come to be so many that another client is harmed.
#[test]
fn a_flood_of_descriptors_ends_its_client_alone() {
    let _alone = alone();
    let before = open_descriptors();
    {
        let mut server = server();
        let (bad, _, told) = server.connect_and_bind();
        let (mut good, _, _) = server.connect_and_bind();
        let pipe = pipe_with("pipe 0");
        let poke = message(3, maker::POKE, &[]);
        let mut most = 0;
        for _ in 0..100 {
            if told.0.lock().unwrap().is_empty() {
                bad.send_bytes(&poke, &[pipe.as_fd(); 28]);
                server.round();
                most = most.max(open_descriptors());
            }
        }
        assert_eq!(told.take(), ["closed"]);
        assert!(most < before + 600, "{most}");
        good.send_bytes(
            &message(3, maker::TAKE, &[]),
            &[pipe_with("pipe 1").as_fd()],
        );
        server.round();
        assert_eq!(texts_of(&mut server), ["pipe 1"]);
        assert_eq!(good.events().len(), 1);
    }
    assert_eq!(open_descriptors(), before);
}

#[test]
fn more_than_28_at_once_end_their_client() {
    let _alone = alone();
    let before = open_descriptors();
    {
        let mut server = server();
        let (peer, _, told) = server.connect_and_bind();
        let pipe = pipe_with("");
        peer.send_bytes(&message(3, maker::POKE, &[]), &[pipe.as_fd(); 100]);
        server.round();
        assert_eq!(told.take(), ["closed"]);
    }
    assert_eq!(open_descriptors(), before);
}

#[test]
fn a_descriptor_for_an_object_that_is_gone_stays_the_programs() {
    let _alone = alone();
    let mut server = server();
    let (peer, client, _) = server.connect_and_bind();
    let handle = server.handle();
    let id = handle.object_for_protocol_id(client, &MAKER, 3).unwrap();
    peer.send(3, maker::DESTROY, &[]);
    server.round();
    let pipe = pipe_with("");
    let before = open_descriptors();
    let event = message!(id, maker::GIVEN, [Argument::Fd(pipe.as_raw_fd())]);
    assert_eq!(handle.send_event(event), Err(InvalidId));
    assert_eq!(open_descriptors(), before);
}
