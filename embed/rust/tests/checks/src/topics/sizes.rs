//! Long messages, in both directions.

use wayland_backend::protocol::Argument;
use wayland_backend::{client, server};

use crate::pair::*;
use crate::table::*;
use crate::Checks;

/// The longest string of a `write`: a message has 65,532 bytes at most, of which 20 are the head, the string's length, the object and
/// the end of the string with what fills its word.
const LONGEST: usize = 65_532 - 20 + 3;

pub fn run(checks: &mut Checks) {
    one_by_one(checks);
    in_one_flush(checks);
    too_long(checks);
}

fn long(length: usize) -> String {
    (0..length)
        .map(|at| char::from(b'a' + (at % 23) as u8))
        .collect()
}

fn one_by_one(checks: &mut Checks) {
    let (mut server, client) = pair();
    let around = |length: usize| {
        [
            length - 1,
            length,
            length + 1,
            length + 2,
            length + 3,
            length + 4,
        ]
    };
    let mut lengths: Vec<usize> = [4_076, 4_096, 8_172, 8_192, 16_384, 32_768]
        .into_iter()
        .flat_map(around)
        .collect();
    lengths.extend([
        60_000,
        65_000,
        LONGEST - 4,
        LONGEST - 3,
        LONGEST - 2,
        LONGEST - 1,
    ]);
    let mut wrong = vec![];
    for length in lengths {
        let wanted = long(length);
        client
            .request(
                &client.shape,
                WRITE,
                vec![text(&wanted), Argument::Object(client::ObjectId::null())],
            )
            .unwrap();
        client.flush();
        server.event(
            &server.last_bound(),
            WRITE,
            vec![text(&wanted), Argument::Object(server::ObjectId::null())],
        );
        server.serve();
        client.read();
        let arrives = |came: Vec<Came>| came.len() == 1 && came[0].bytes == wanted.as_bytes();
        if !(arrives(server.came()) && arrives(client.came())) {
            wrong.push(length);
        }
    }
    checks.equal(
        "strings of 4,075 to 65,515 bytes arrive, both ways; these do not",
        wrong,
        vec![],
    );
    checks.check("and the session works", works(&mut server, &client));
}

/// More than a socket takes at once: both sides send while the other reads.
fn in_one_flush(checks: &mut Checks) {
    let (mut server, client) = pair();
    for number in 0..40u64 {
        let length = 1_500 * number as usize + 7;
        // The file is closed when the request is made: its copy is sent.
        let sent = file(number);
        let all = vec![
            Argument::Uint(number as u32),
            Argument::Int(number as i32),
            Argument::Fixed(1),
            text("a"),
            Argument::Array(Box::new(long(length).into_bytes())),
            Argument::Object(client.shape.clone()),
            fd(&sent),
        ];
        client.request(&client.shape, ALL, all).unwrap();
    }
    let mut flushes = 0;
    while let Err(error) = client.backend.flush() {
        assert!(would_block(&error), "{error}");
        server.dispatch();
        flushes += 1;
    }
    server.dispatch();
    let came: Vec<_> = server
        .came()
        .into_iter()
        .map(|it| (it.bytes.len(), it.file))
        .collect();
    let wanted: Vec<_> = (0..40)
        .map(|number| (1_500 * number as usize + 7, Some(number)))
        .collect();
    checks.equal(
        "1.2 MB of arrays in one flush arrive, with their descriptors",
        came,
        wanted,
    );
    checks.check("though the socket did not take them at once", flushes > 0);
}

/// A message that is too long is not sent, and not cut: its sender's session ends, and so does its client.
fn too_long(checks: &mut Checks) {
    for length in [LONGEST + 1, 70_000, 1_000_000] {
        let (mut server, client) = pair();
        let request = vec![
            text(&long(length)),
            Argument::Object(client::ObjectId::null()),
        ];
        let _ = client.request(&client.shape, WRITE, request);
        let _ = client.backend.flush();
        let has_failed = client.backend.last_error().is_some();
        checks.check(
            &format!("a client that asks with a string of {length} bytes fails"),
            has_failed,
        );
        server.serve();
        drop(client);
        server.serve();
        checks.equal("and its server gets nothing of it", server.came().len(), 0);
        let other = Client::new(server.accept().0);
        server.serve();
        let event = vec![
            text(&long(length)),
            Argument::Object(server::ObjectId::null()),
        ];
        let of_other = server.last_bound();
        server.event(&of_other, WRITE, event);
        server.serve();
        checks.equal(
            "a client whom a server tells so much is ended",
            server.clients(),
            0,
        );
        let read = || other.backend.prepare_read().unwrap().read();
        while read().is_ok_and(|count| count > 0) {}
        checks.equal("and gets nothing of it", other.came().len(), 0);
        let third = Client::new(server.accept().0);
        server.serve();
        let of_third = server.last_bound();
        checks.check(
            "and the server works",
            works_with(&mut server, &third, &of_third),
        );
    }
}
