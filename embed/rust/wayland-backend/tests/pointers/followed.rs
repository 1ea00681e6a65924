//! What happens to C that follows a pointer: it has no memory there.

use std::env;
use std::ffi::{c_char, CStr};
use std::os::unix::process::ExitStatusExt;
use std::process::{Command, Output};

use crate::clients::Client;
use crate::servers::Server;

const SIGSEGV: i32 = 11;

/// Says to the child which pointer it follows.
const WHICH: &str = "POINTER_TO_FOLLOW";

extern "C" {
    /// Of the C library: it reads bytes until one is 0.
    fn strlen(text: *const c_char) -> usize;
}

/// The part of a child process.
#[test]
#[ignore = "a child process of `who_follows_a_pointer_ends` runs it"]
fn follow() {
    let (client, server) = (Client::new(), Server::new());
    let (thing, resource) = (client.thing(), server.thing(0));
    let pointer: *const c_char = match env::var(WHICH).unwrap().as_str() {
        "connection" => client.backend.display_ptr().cast_const().cast(),
        "object" => thing.as_ptr().cast_const().cast(),
        "object's field" => thing
            .as_ptr()
            .cast_const()
            .cast::<c_char>()
            .wrapping_add(56),
        "server" => server.handle.display_ptr().cast_const().cast(),
        "server's object" => resource.as_ptr().cast_const().cast(),
        "list around an object" => resource
            .as_ptr()
            .cast_const()
            .cast::<c_char>()
            .wrapping_sub(16),
        _ => CStr::as_ptr(c"memory"),
    };
    println!("begin");
    // SAFETY: none: the process ends by it, or the memory is that of a text.
    println!("end: {}", unsafe { strlen(pointer) });
}

fn child(which: &str) -> Output {
    Command::new(env::current_exe().unwrap())
        .args(["--exact", "followed::follow", "--ignored", "--nocapture"])
        .env(WHICH, which)
        .output()
        .unwrap()
}

#[test]
fn who_follows_a_pointer_ends() {
    let pointers = [
        "connection",
        "object",
        "object's field",
        "server",
        "server's object",
        "list around an object",
    ];
    for which in pointers {
        let child = child(which);
        let said = String::from_utf8_lossy(&child.stdout);
        assert_eq!(child.status.signal(), Some(SIGSEGV), "{which}: {said}");
        assert!(said.contains("begin") && !said.contains("end"), "{said}");
    }
    // A child that follows a pointer to something does not.
    let child = child("memory");
    assert!(child.status.success());
    assert!(String::from_utf8_lossy(&child.stdout).contains("end: 6"));
}
