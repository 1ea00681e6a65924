//! Peers that do not read, a thousand clients, ten thousand objects.

use std::time::{Duration, Instant};

use rustix::process::{getrlimit, setrlimit, Resource, Rlimit};
use wayland_backend::message;
use wayland_backend::protocol::Argument;

use crate::pair::*;
use crate::table::*;
use crate::Checks;

pub fn run(checks: &mut Checks) {
    // A thousand clients have two thousand sockets here.
    let limit = getrlimit(Resource::Nofile);
    let _ = setrlimit(
        Resource::Nofile,
        Rlimit {
            current: limit.maximum,
            ..limit
        },
    );
    client_does_not_read(checks);
    server_does_not_read(checks);
    many_clients(checks);
    many_objects(checks);
}

/// The memory that the process has, in KiB.
fn memory() -> u64 {
    let status = std::fs::read_to_string("/proc/self/status").unwrap();
    let line = status
        .lines()
        .find(|line| line.starts_with("VmRSS:"))
        .unwrap();
    line.split_whitespace().nth(1).unwrap().parse().unwrap()
}

fn client_does_not_read(checks: &mut Checks) {
    let mut server = Server::new();
    let slow = Client::new(server.accept().0);
    server.serve();
    let of_slow = server.last_bound();
    let good = Client::new(server.accept().0);
    server.serve();
    let of_good = server.last_bound();
    good.read();
    let (first, mut most, mut sent) = (memory(), 0, 0);
    while sent < 4_000_000 && server.event(&of_slow, NUMBER, vec![Argument::Int(sent)]) {
        sent += 1;
        if sent % 1000 == 0 {
            let _ = server.backend.flush(None);
            most = most.max(memory().saturating_sub(first));
            if server.clients() < 2 {
                break;
            }
        }
    }
    server.serve();
    checks.equal(
        &format!("a client that does not read is killed, after {sent} events"),
        server.clients(),
        1,
    );
    checks.equal("and told once", server.ends.count(), (1, 0));
    checks.check(&format!("it took {most} KiB, at most 8 MiB"), most < 8192);
    checks.check(
        "another is served as before",
        works_with(&mut server, &good, &of_good),
    );
    drop(slow);
}

/// A client waits without a limit, as the original does; its flush says so.
fn server_does_not_read(checks: &mut Checks) {
    let (mut server, client) = pair();
    let mut blocked = false;
    for number in 0..100_000 {
        client.number(number);
        if number % 1000 == 0 {
            if let Err(error) = client.backend.flush() {
                assert!(would_block(&error), "{error}");
                blocked = true;
            }
        }
    }
    checks.check(
        "a client whose server does not read is told that its flush would wait",
        blocked,
    );
    let end = Instant::now() + Duration::from_secs(30);
    while Instant::now() < end {
        server.dispatch();
        if client.backend.flush().is_ok() {
            break;
        }
    }
    server.dispatch();
    let came: Vec<_> = server.came().into_iter().map(|it| it.number).collect();
    checks.check(
        "and all of 100,000 requests arrive, in order",
        came == (0..100_000).collect::<Vec<i64>>(),
    );
    checks.check("and the session works", works(&mut server, &client));
}

fn many_clients(checks: &mut Checks) {
    let before = open_files();
    let mut server = Server::new();
    let begun = Instant::now();
    let clients: Vec<_> = (0..1000).map(|_| Client::new(server.accept().0)).collect();
    server.serve();
    checks.equal(
        "a thousand clients are served",
        (server.clients(), server.state.bound.len()),
        (1000, 1000),
    );
    for (number, client) in clients.iter().enumerate() {
        client.number(number as i32);
        client.flush();
    }
    server.serve();
    let mut numbers: Vec<_> = server.came().into_iter().map(|it| it.number).collect();
    numbers.sort_unstable();
    checks.check(
        "and each one's request arrives",
        numbers == (0..1000).collect::<Vec<i64>>(),
    );
    let ids = server.state.bound.clone();
    for id in &ids {
        server.event(id, NUMBER, vec![Argument::Int(7)]);
    }
    server.serve();
    let events: usize = clients.iter().map(|client| client.read()).sum();
    // Each has the event, and the global that its registry announced.
    checks.equal("and each gets its event", events, 2000);
    println!("       {:?} for a thousand clients", begun.elapsed());
    for client in clients.into_iter().step_by(2) {
        drop(client);
    }
    server.serve();
    server.serve();
    checks.equal(
        "and all that leave are told once",
        (server.clients(), server.ends.count()),
        (0, (1000, 0)),
    );
    checks.equal(
        "and their objects are destroyed",
        server.state.destroyed,
        1000,
    );
    drop(server);
    checks.equal("and their sockets are closed", open_files(), before);
}

fn many_objects(checks: &mut Checks) {
    const COUNT: usize = 10_000;
    let (mut server, client) = pair();
    let begun = Instant::now();
    let mut children = Vec::with_capacity(COUNT);
    for number in 0..COUNT {
        children.push(client.make());
        if number % 100 == 99 {
            client.flush();
            server.serve();
        }
    }
    let id = server.handle().get_client(server.last_bound()).unwrap();
    let mut count = 0;
    server
        .handle()
        .with_all_objects_for(id.clone(), |_| count += 1)
        .unwrap();
    // With the display, the registry and the shape.
    checks.equal("a client has ten thousand objects", count, COUNT + 3);
    for (number, child) in children.iter().enumerate() {
        client
            .backend
            .send_request(
                message!(child.clone(), NUMBER, [Argument::Int(number as i32)]),
                None,
                None,
            )
            .unwrap();
        if number % 100 == 99 {
            client.flush();
            server.serve();
        }
    }
    let numbers: Vec<_> = server
        .came()
        .into_iter()
        .filter(|it| it.opcode == NUMBER)
        .map(|it| it.number)
        .collect();
    checks.check(
        "each of which gets its request",
        numbers == (0..COUNT as i64).collect::<Vec<_>>(),
    );
    for (number, child) in children.iter().take(COUNT / 2).enumerate() {
        client.request(child, END, vec![]).unwrap();
        if number % 100 == 99 {
            client.flush();
            server.serve();
            client.read();
        }
    }
    checks.equal(
        "half of them are destroyed",
        server.state.destroyed,
        COUNT / 2,
    );
    checks.equal(
        "and the client was told of each",
        client
            .inbox
            .destroyed
            .load(std::sync::atomic::Ordering::SeqCst),
        COUNT / 2,
    );
    // Their numbers are used again.
    checks.check(
        "and their numbers are free",
        (client.make().protocol_id() as usize) < COUNT / 2 + 5,
    );
    drop(client);
    server.serve();
    server.serve();
    checks.equal(
        "the others end with the client, once each",
        server.state.destroyed,
        COUNT + 1,
    );
    println!("       {:?} for ten thousand objects", begun.elapsed());
}
