//! The interface of the scenarios.

use wayland_backend::protocol::{AllowNull, ArgumentType, Interface, MessageDesc};

/// Opcodes that requests and events have in common.
pub const NUMBER: u16 = 0;
pub const WRITE: u16 = 1;
pub const MAKE: u16 = 2;
pub const END: u16 = 3;
pub const GIVE: u16 = 4;
pub const LATE: u16 = 5;
pub const ALL: u16 = 6;

static MESSAGES: [MessageDesc; 7] = [
    message("number", &[ArgumentType::Int]),
    MessageDesc {
        arg_interfaces: &[&SHAPE],
        ..message(
            "write",
            &[
                ArgumentType::Str(AllowNull::Yes),
                ArgumentType::Object(AllowNull::Yes),
            ],
        )
    },
    MessageDesc {
        child_interface: Some(&SHAPE),
        ..message("make", &[ArgumentType::NewId])
    },
    MessageDesc {
        is_destructor: true,
        ..message("end", &[])
    },
    message("give", &[ArgumentType::Fd]),
    MessageDesc {
        since: 3,
        ..message("late", &[])
    },
    MessageDesc {
        arg_interfaces: &[&SHAPE],
        ..message(
            "all",
            &[
                ArgumentType::Uint,
                ArgumentType::Int,
                ArgumentType::Fixed,
                ArgumentType::Str(AllowNull::No),
                ArgumentType::Array,
                ArgumentType::Object(AllowNull::No),
                ArgumentType::Fd,
            ],
        )
    },
];

/// Requests and events are the same.
pub static SHAPE: Interface = Interface {
    name: "shape",
    version: 3,
    requests: &MESSAGES,
    events: &MESSAGES,
    c_ptr: None,
};

/// Another static of the same name.
pub static SHAPE_AGAIN: Interface = Interface {
    name: "shape",
    version: 4,
    requests: &MESSAGES,
    events: &MESSAGES,
    c_ptr: None,
};

/// Opcodes of pens.
pub const DRAW: u16 = 0;
pub const FILL: u16 = 1;
pub const DREW: u16 = 0;
pub const EMPTY: u16 = 1;

const PEN_REQUESTS: &[MessageDesc] = &[
    message("draw", &[ArgumentType::Int]),
    MessageDesc {
        since: 2,
        child_interface: Some(&INK),
        ..message(
            "fill",
            &[ArgumentType::Str(AllowNull::No), ArgumentType::NewId],
        )
    },
];

const PEN_EVENTS: &[MessageDesc] = &[
    message("drew", &[ArgumentType::Int]),
    MessageDesc {
        since: 3,
        ..message("empty", &[ArgumentType::Str(AllowNull::No)])
    },
];

/// An interface in its first version.
pub static PEN_1: Interface = Interface {
    name: "pen",
    version: 1,
    requests: PEN_REQUESTS.split_at(1).0,
    events: PEN_EVENTS.split_at(1).0,
    c_ptr: None,
};

/// And in its third.
pub static PEN_3: Interface = Interface {
    name: "pen",
    version: 3,
    requests: PEN_REQUESTS,
    events: PEN_EVENTS,
    c_ptr: None,
};

/// An interface of that name, and of another protocol.
pub static OTHER_PEN: Interface = Interface {
    name: "pen",
    version: 2,
    requests: &[message("draw", &[ArgumentType::Uint])],
    events: &[],
    c_ptr: None,
};

static INK: Interface = Interface {
    name: "ink",
    version: 3,
    requests: &[],
    events: &[],
    c_ptr: None,
};

/// An interface that no message names.
pub static STRANGER: Interface = Interface {
    name: "stranger",
    version: 1,
    requests: &MESSAGES,
    events: &MESSAGES,
    c_ptr: None,
};

const fn message(name: &'static str, signature: &'static [ArgumentType]) -> MessageDesc {
    MessageDesc {
        name,
        signature,
        since: 1,
        is_destructor: false,
        child_interface: None,
        arg_interfaces: &[],
    }
}
