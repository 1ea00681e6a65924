//! Pointers that name connections and objects among the crates of a program, by the features `client_system` and
//! `server_system`.

use std::panic::{catch_unwind, AssertUnwindSafe};

use wayland_backend::protocol::{ArgumentType, Interface, MessageDesc};

mod clients;
mod followed;
mod servers;

/// An interface whose objects end by a request, and are told a number by an event.
static THING: Interface = Interface {
    name: "thing",
    version: 1,
    requests: &[MessageDesc {
        is_destructor: true,
        ..message("destroy", &[])
    }],
    events: &[message("told", &[ArgumentType::Uint])],
    c_ptr: None,
};

/// The destructor of a thing.
const DESTROY: u16 = 0;

/// An interface that is no object's here.
static OTHER: Interface = Interface {
    name: "other",
    ..THING
};

const fn message(name: &'static str, signature: &'static [ArgumentType]) -> MessageDesc {
    MessageDesc {
        name,
        signature,
        since: 1,
        is_destructor: false,
        child_interface: None,
        arg_interfaces: &[],
    }
}

fn words(words: &[u32]) -> Vec<u8> {
    words.iter().flat_map(|word| word.to_ne_bytes()).collect()
}

/// The text of the panic of this call.
fn panic_of<T>(call: impl FnOnce() -> T) -> String {
    let panic = catch_unwind(AssertUnwindSafe(call)).err();
    *panic.expect("it panics").downcast().expect("a text")
}
