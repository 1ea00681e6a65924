//! Calls that came after 0.3.8.

use std::sync::atomic::Ordering;

use wayland_backend::protocol::Argument;
use wayland_backend::{client, message, server};

use crate::pair::*;
use crate::table::*;
use crate::Checks;

pub fn run(checks: &mut Checks) {
    client_destroys(checks);
    server_destroys(checks);
    equal_errors(checks);
    client_limit(checks);
    lowest_limits(checks);
    server_limits(checks);
    names_of_globals(checks);
}

fn client_destroys(checks: &mut Checks) {
    let (mut server, client) = pair();
    let child = client.make();
    checks.check(
        "a client destroys an object without a request",
        client.backend.destroy_object(&child).is_ok(),
    );
    checks.equal(
        "which is told once",
        client.inbox.destroyed.load(Ordering::SeqCst),
        1,
    );
    checks.check(
        "and not twice",
        client.backend.destroy_object(&child).is_err(),
    );
    checks.check(
        "and is not known any more",
        client.backend.info(child.clone()).is_err(),
    );
    checks.check(
        "nor are requests of it",
        client
            .request(&child, NUMBER, vec![Argument::Int(1)])
            .is_err(),
    );
    client.flush();
    server.serve();
    let handle = server.handle();
    let id = handle.get_client(server.last_bound()).unwrap();
    let of_server = handle.object_for_protocol_id(id, &SHAPE, child.protocol_id());
    checks.check("the server still has it", of_server.is_ok());
    server.event(&of_server.unwrap(), NUMBER, vec![Argument::Int(5)]);
    server.serve();
    client.read();
    checks.equal("and its events go nowhere", client.came().len(), 0);
    checks.check(
        "null cannot be destroyed",
        client
            .backend
            .destroy_object(&client::ObjectId::null())
            .is_err(),
    );
    checks.check("and the session works", works(&mut server, &client));
}

fn server_destroys(checks: &mut Checks) {
    let (mut server, client) = pair();
    let child = client.make();
    client.flush();
    server.serve();
    let handle = server.handle();
    let id = handle.get_client(server.last_bound()).unwrap();
    let of_server = handle
        .object_for_protocol_id(id, &SHAPE, child.protocol_id())
        .unwrap();
    checks.check(
        "a server destroys an object without an event",
        handle.destroy_object::<State>(&of_server).is_ok(),
    );
    checks.check(
        "and not twice",
        handle.destroy_object::<State>(&of_server).is_err(),
    );
    checks.check(
        "and it is not known any more",
        handle.object_info(of_server.clone()).is_err(),
    );
    checks.check(
        "nor are events of it",
        !server.event(&of_server, NUMBER, vec![Argument::Int(1)]),
    );
    client.number(2);
    client.flush();
    server.serve();
    checks.equal(
        "which is told at the next dispatch, once",
        server.state.destroyed,
        1,
    );
    checks.check(
        "null cannot be destroyed",
        handle
            .destroy_object::<State>(&server::ObjectId::null())
            .is_err(),
    );
    checks.check("and the session works", works(&mut server, &client));
}

fn is_comparable<T: Clone + Eq>(value: T) -> bool {
    value == value.clone()
}

fn equal_errors(checks: &mut Checks) {
    checks.check(
        "errors of ids can be compared",
        is_comparable(client::InvalidId) && is_comparable(server::InvalidId),
    );
}

/// How many requests wait for a server that does not read, until the client fails. Without a limit there are more.
fn client_limit(checks: &mut Checks) {
    let mut counts = vec![];
    for limit in [Some(4096), Some(1 << 16), None] {
        let (_server, client) = pair();
        client.backend.set_max_buffer_size(limit);
        let mut count = 0;
        while client.backend.last_error().is_none() && count < 200_000 {
            let _ = client.request(&client.shape, NUMBER, vec![Argument::Int(1)]);
            let _ = client.backend.flush();
            count += 1;
        }
        counts.push(count);
    }
    let grows = counts[0] < counts[1] && counts[1] < counts[2] && counts[2] == 200_000;
    checks.check(
        &format!("a client fails at its limit, and only there: {counts:?} requests"),
        grows,
    );
}

/// A limit below what a session's buffer has anyway. A flush sends what waits, and returns.
fn lowest_limits(checks: &mut Checks) {
    for limit in [0, 1, 4095] {
        let (mut server, client) = pair();
        client.backend.set_max_buffer_size(Some(limit));
        let (done, is_done) = std::sync::mpsc::channel();
        let (backend, shape) = (client.backend.clone(), client.shape.clone());
        std::thread::spawn(move || {
            let are_flushed = (0..1000).all(|number| {
                let request = message!(shape.clone(), NUMBER, [Argument::Int(number)]);
                let sent = backend.send_request(request, None, None);
                sent.is_ok() && (number % 100 != 99 || backend.flush().is_ok())
            });
            done.send(are_flushed)
        });
        let flushed = is_done.recv_timeout(std::time::Duration::from_secs(10));
        checks.equal(
            &format!("with a limit of {limit} bytes a flush returns"),
            flushed,
            Ok(true),
        );
        if flushed.is_err() {
            continue; // the session is locked
        }
        server.serve();
        checks.equal("and all is sent", server.came().len(), 1000);
    }
}

/// How many events wait for a client that does not read, until it is killed.
fn server_limits(checks: &mut Checks) {
    let mut counts = vec![];
    for (default, own) in [(4096, None), (1 << 20, None), (4096, Some(1 << 20))] {
        let mut server = Server::new();
        server.handle().set_default_max_buffer_size(default);
        let (socket, id) = server.accept();
        if let Some(own) = own {
            server.handle().set_client_max_buffer_size(id, own);
        }
        let _client = Client::new(socket);
        server.serve();
        let (shape, mut count) = (server.last_bound(), 0);
        while server.ends.count() == (0, 0) && count < 1_000_000 {
            server.event(&shape, NUMBER, vec![Argument::Int(1)]);
            if count % 100 == 0 {
                let _ = server.backend.flush(None);
            }
            count += 1;
        }
        server.serve();
        counts.push(count);
    }
    // An event has 12 bytes.
    let differ =
        counts[1] > counts[0] + 50_000 && counts[2] > counts[0] + 50_000 && counts[1] < 1_000_000;
    checks.check(
        &format!("a client that does not read is killed at its limit: after {counts:?} events"),
        differ,
    );
}

fn names_of_globals(checks: &mut Checks) {
    let (mut server, _client) = pair();
    let handle = server.handle();
    let id = handle.get_client(server.last_bound()).unwrap();
    let second =
        handle.create_global::<State>(&SHAPE, 1, std::sync::Arc::new(Global(Doing::default())));
    checks.equal(
        "a global's name is what its registry said",
        handle.global_name(second.clone(), id.clone()),
        Some(2),
    );
    handle.remove_global::<State>(second.clone());
    checks.equal(
        "one that is gone has none",
        handle.global_name(second, id),
        None,
    );
    server.serve();
}
