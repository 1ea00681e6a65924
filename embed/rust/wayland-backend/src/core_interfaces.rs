//! `wl_display`, `wl_registry` and `wl_callback`. They are in each table beforehand, and never change.

use crate::protocol::AllowNull::No;
use crate::protocol::ArgumentType::{NewId, Object, Str, Uint};
use crate::protocol::{ArgumentType, Interface, MessageDesc, ANONYMOUS_INTERFACE};

/// A message that makes no object and ends none.
const fn message(name: &'static str, signature: &'static [ArgumentType]) -> MessageDesc {
    MessageDesc {
        name,
        signature,
        since: 1,
        is_destructor: false,
        child_interface: None,
        arg_interfaces: &[],
    }
}

const fn interface(
    name: &'static str,
    requests: &'static [MessageDesc],
    events: &'static [MessageDesc],
) -> Interface {
    Interface {
        name,
        version: 1,
        requests,
        events,
        c_ptr: None,
    }
}

/// The interface of object 1, by which all begins.
pub(crate) static WL_DISPLAY_INTERFACE: Interface = interface(
    "wl_display",
    &[
        MessageDesc {
            child_interface: Some(&WL_CALLBACK_INTERFACE),
            ..message("sync", &[NewId])
        },
        MessageDesc {
            child_interface: Some(&WL_REGISTRY_INTERFACE),
            ..message("get_registry", &[NewId])
        },
    ],
    &[
        MessageDesc {
            arg_interfaces: &[&ANONYMOUS_INTERFACE],
            ..message("error", &[Object(No), Uint, Str(No)])
        },
        message("delete_id", &[Uint]),
    ],
);

/// The interface of the list of globals.
pub(crate) static WL_REGISTRY_INTERFACE: Interface = interface(
    "wl_registry",
    &[message("bind", &[Uint, Str(No), Uint, NewId])],
    &[
        message("global", &[Uint, Str(No), Uint]),
        message("global_remove", &[Uint]),
    ],
);

/// The interface of what happens once.
pub(crate) static WL_CALLBACK_INTERFACE: Interface = interface(
    "wl_callback",
    &[],
    &[MessageDesc {
        is_destructor: true,
        ..message("done", &[Uint])
    }],
);
