//! Descriptors: each arrives in its place, and each is closed once.

use std::io::Read;
use std::os::fd::{AsFd, OwnedFd};
use std::os::unix::net::UnixStream;

use wayland_backend::server::DisconnectReason;

use crate::pair::*;
use crate::table::*;
use crate::Checks;

pub fn run(checks: &mut Checks) {
    let (before, bystander) = (open_files(), Bystander::new());
    in_a_flush(checks);
    closed_once(checks);
    for_the_dead(checks);
    of_the_killed(checks);
    of_dropped_sessions(checks);
    checks.check("no other descriptor was closed", bystander.is_untouched());
    drop(bystander);
    checks.equal("no descriptor is left", open_files(), before);
}

fn in_a_flush(checks: &mut Checks) {
    for count in [27, 28, 29, 56, 57, 100, 300] {
        let (mut server, client) = pair();
        let before = open_files();
        for size in 1..=count {
            client
                .request(&client.shape, GIVE, vec![fd(&file(size))])
                .unwrap();
            server.event(&server.last_bound(), GIVE, vec![fd(&file(size))]);
        }
        client.flush();
        server.serve();
        client.read();
        let wanted: Vec<_> = (1..=count).map(Some).collect();
        let sizes = |came: Vec<Came>| came.into_iter().map(|it| it.file).collect::<Vec<_>>();
        checks.check(
            &format!("{count} descriptors of a flush arrive at the server, in order"),
            sizes(server.came()) == wanted,
        );
        checks.check(
            &format!("{count} at the client"),
            sizes(client.came()) == wanted,
        );
        checks.equal("and all are closed", open_files(), before);
    }
}

/// The reader of a connection sees its end when all copies of the other end are closed.
fn closed_once(checks: &mut Checks) {
    let (mut server, client) = pair();
    let (mut reader, writer) = UnixStream::pair().unwrap();
    reader.set_nonblocking(true).unwrap();
    let writer = OwnedFd::from(writer);
    client
        .request(&client.shape, GIVE, vec![fd(&writer)])
        .unwrap();
    drop(writer);
    let mut is_open = || reader.read(&mut [0]).is_err();
    checks.check("a descriptor that waits is open", is_open());
    client.flush();
    checks.check("one on the way is open", is_open());
    server.serve();
    checks.check("one whose handler has returned is closed", !is_open());
}

/// Descriptors for objects that are not there any more.
fn for_the_dead(checks: &mut Checks) {
    let (mut server, client) = pair();
    let before = open_files();
    let child = client.make();
    client.flush();
    server.serve();
    let handle = server.handle();
    let id = handle.get_client(server.last_bound()).unwrap();
    let of_server = handle
        .object_for_protocol_id(id, &SHAPE, child.protocol_id())
        .unwrap();
    client.request(&child, END, vec![]).unwrap();
    for size in 1..=60 {
        server.event(&of_server, GIVE, vec![fd(&file(size))]);
    }
    server.event(&server.last_bound(), GIVE, vec![fd(&file(77))]);
    server.serve();
    client.read();
    let came: Vec<_> = client.came().into_iter().map(|it| it.file).collect();
    checks.equal(
        "of events for a dead object, only the next living one's descriptor is handed out",
        came,
        vec![Some(77)],
    );
    checks.equal("and all are closed", open_files(), before);
    server.event(&of_server, GIVE, vec![fd(&file(1))]);
    server.serve();
    client.read();
    checks.equal(
        "also where no other one comes behind it",
        open_files(),
        before,
    );
    checks.check("and the session works", works(&mut server, &client));
}

fn of_the_killed(checks: &mut Checks) {
    let mut server = Server::new();
    let before = open_files();
    for end in ["kill", "error", "breach"] {
        let (socket, id) = server.accept();
        let client = Client::new(socket);
        server.serve();
        for size in 1..=40 {
            client
                .request(&client.shape, GIVE, vec![fd(&file(size))])
                .unwrap();
            server.event(&server.last_bound(), GIVE, vec![fd(&file(size))]);
        }
        match end {
            "kill" => server
                .handle()
                .kill_client(id, DisconnectReason::ConnectionClosed),
            "error" => server
                .handle()
                .post_error(server.last_bound(), 1, c"no".into()),
            _ => {
                // An object that is not there, before the descriptors.
                rustix::io::write(client.backend.poll_fd().as_fd(), &[9, 0, 0, 0, 0, 0, 8, 0])
                    .unwrap();
            }
        }
        let _ = client.backend.flush();
        server.serve();
        server.serve();
        drop(client);
        server.serve();
        checks.equal(
            &format!("after a {end}, no descriptor of either side is left"),
            open_files(),
            before,
        );
    }
}

fn of_dropped_sessions(checks: &mut Checks) {
    let before = open_files();
    for is_flushed in [false, true] {
        let (mut server, client) = pair();
        for size in 1..=50 {
            client
                .request(&client.shape, GIVE, vec![fd(&file(size))])
                .unwrap();
            server.event(&server.last_bound(), GIVE, vec![fd(&file(size))]);
        }
        if is_flushed {
            client.flush();
            server.backend.flush(None).unwrap();
        }
        drop(client);
        drop(server);
        checks.equal(
            "a session that is dropped closes what it holds",
            open_files(),
            before,
        );
    }
    // What came and waits, since its message is not complete.
    let (mut server, client) = pair();
    let (sent, bytes) = (file(1), [3u8, 0, 0, 0, 4, 0]);
    crate::topics::hostile::send_with_files(
        client.backend.poll_fd(),
        &bytes,
        &[sent.as_fd(), sent.as_fd()],
    );
    server.serve();
    drop((sent, client));
    server.serve();
    drop(server);
    checks.equal(
        "also what waits for the rest of its message",
        open_files(),
        before,
    );
}
