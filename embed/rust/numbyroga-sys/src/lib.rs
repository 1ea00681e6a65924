//! The declarations of `numbyroga.h`: a server's and a client's session of the Wayland protocol, queues of events beside it, and a guard
//! or a relay between the two, proved, as plain calls.
//!
//! Names are those of the header, which says what each call does. A call whose pointers all name one value takes
//! references, and is safe to call: a reference keeps the header's rules about memory, and `&mut` to a place keeps two
//! threads out of it. A call that takes a slice as a pointer and a count is `unsafe`: the pointer has to name as many
//! elements as the count says, and memory that is written must overlap no other memory of the call.
//!
//! Descriptors are numbers here. Which of them the session owns, and when it hands them back, stands in the header,
//! "Descriptors".
//!
//! The crate links `libnumbyroga.a`. `build.rs` looks for it in the folder that `NUMBYROGA_LIB_DIR` names, then by
//! pkg-config, then in `embed/build` of the repository, then in its `dist/`, which has the last release.

#![no_std]
#![allow(non_camel_case_types)]
#![warn(missing_docs)]

use core::ffi::c_void;
use core::mem::{align_of, offset_of, size_of};
use core::ptr;

/// Declares a place, with the name of its pointer.
macro_rules! place {
    ($(#[$doc:meta])* $name:ident: $pointer:ident) => {
        $(#[$doc])*
        ///
        /// It is empty at first, and may be moved. It is never copied, and dropping it frees nothing.
        #[repr(C)]
        #[derive(Debug)]
        pub struct $name {
            state: u64,
            $pointer: *mut c_void,
        }

        impl $name {
            /// An empty place, `NB_EMPTY`.
            pub const EMPTY: Self = Self { state: 0, $pointer: ptr::null_mut() };
        }

        impl Default for $name {
            fn default() -> Self {
                Self::EMPTY
            }
        }

        // SAFETY: any thread may call with a place, as long as no two calls of one place overlap in time; a call takes
        // the place by `&mut`. The library has no global variable, and its memory comes from malloc.
        unsafe impl Send for $name {}

        // SAFETY: nothing can be done with a shared reference to a place.
        unsafe impl Sync for $name {}

        layout!($name: 16, 8 { state: 0, $pointer: 8 });
    };
}

/// Refuses to compile if a struct is not laid out as the header's: its size and alignment, and where each field begins.
macro_rules! layout {
    ($name:ident: $size:literal, $align:literal { $($field:ident: $offset:literal),* $(,)? }) => {
        const _: () = {
            assert!(size_of::<$name>() == $size && align_of::<$name>() == $align);
            $(assert!(offset_of!($name, $field) == $offset);)*
        };
    };
}

/// Declares a struct of plain numbers, with its layout.
macro_rules! plain {
    (
        $(#[$doc:meta])*
        $name:ident: $size:literal, $align:literal {
            $($(#[$field_doc:meta])* $field:ident: $type:ty = $offset:literal),* $(,)?
        }
    ) => {
        $(#[$doc])*
        #[repr(C)]
        #[derive(Clone, Copy, Debug, Default, PartialEq, Eq)]
        pub struct $name {
            $($(#[$field_doc])* pub $field: $type,)*
        }

        layout!($name: $size, $align { $($field: $offset),* });
    };
}

place! {
    /// The place of a server's session.
    nb_server: session
}

place! {
    /// The place of a client's session.
    nb_client: session
}

place! {
    /// The place of queues of events.
    nb_queues: queues
}

place! {
    /// The place of a policy.
    nb_policy: policy
}

place! {
    /// The place of a guard.
    nb_guard: guard
}

place! {
    /// The place of a relay.
    nb_relay: relay
}

/// What a call answers: one of the values below.
pub type nb_status = u32;

/// Done.
pub const NB_OK: nb_status = 0;
/// The place is empty.
pub const NB_NO_SESSION: nb_status = 1;
/// The place has a session already.
pub const NB_IN_USE: nb_status = 2;
/// malloc refused.
pub const NB_OUT_OF_MEMORY: nb_status = 3;
/// Nothing more is there now.
pub const NB_WOULD_BLOCK: nb_status = 4;
/// The memory that was lent is too small; what is needed is told, and nothing is lost.
pub const NB_TOO_SMALL: nb_status = 5;
/// A struct has what it cannot have: a kind, an opcode above 65535, a range outside of the bytes.
pub const NB_INVALID_INPUT: nb_status = 6;
/// The id names nothing that the call may use.
pub const NB_INVALID_ID: nb_status = 7;
/// The rows make no table; the fault says which and why.
pub const NB_BAD_TABLE: nb_status = 8;
/// More than [`NB_MOST_DESCRIPTORS`] would wait.
pub const NB_TOO_MANY_DESCRIPTORS: nb_status = 9;
/// The client is killed, or the connection has ended.
pub const NB_CLOSED: nb_status = 10;
/// The bytes are no message that the other side may send.
pub const NB_PROTOCOL_ERROR: nb_status = 11;
/// A message is longer than a message, or than the buffer, may be.
pub const NB_TOO_BIG: nb_status = 12;
/// The socket failed, as the host told the session.
pub const NB_IO_ERROR: nb_status = 13;
/// A client's session has an error: [`nb_client_last_error`].
pub const NB_FAILED: nb_status = 14;
/// An action, or event, was handed out and is not finished.
pub const NB_OPEN: nb_status = 15;
/// No action, or event, is open.
pub const NB_NOT_OPEN: nb_status = 16;
/// A request is finished as a bind, or a bind as a request.
pub const NB_WRONG_KIND: nb_status = 17;
/// An object is made, and no data are given for it.
pub const NB_MISSING_DATA: nb_status = 18;
/// No object is made, and data are given.
pub const NB_UNEXPECTED_DATA: nb_status = 19;
/// The interface has no such event, or request.
pub const NB_UNKNOWN_OPCODE: nb_status = 20;
/// The arguments are not those of the message: their number, or the kind of one.
pub const NB_BAD_SIGNATURE: nb_status = 21;
/// An object argument is null, and may not be.
pub const NB_NULL_OBJECT: nb_status = 22;
/// An event has a new id that is null.
pub const NB_NULL_NEW_ID: nb_status = 23;
/// An argument is an object of another client.
pub const NB_FOREIGN_OBJECT: nb_status = 24;
/// An argument is an object of another interface than the table asks for.
pub const NB_WRONG_INTERFACE: nb_status = 25;
/// No interface of the table has the number.
pub const NB_UNKNOWN_INTERFACE: nb_status = 26;
/// The version is above that of the interface in the table, or 0 for an object.
pub const NB_VERSION_TOO_HIGH: nb_status = 27;
/// No number is left for an object.
pub const NB_IDS_EXHAUSTED: nb_status = 28;
/// No serial is left.
pub const NB_SERIALS_EXHAUSTED: nb_status = 29;
/// No slot, or no name, is left.
pub const NB_FULL: nb_status = 30;
/// A request makes an object of another interface than the table says.
pub const NB_WRONG_CHILD: nb_status = 31;
/// A request makes an object of another version than that of its sender.
pub const NB_WRONG_CHILD_VERSION: nb_status = 32;
/// Nobody says of which interface the new object is.
pub const NB_MISSING_CHILD: nb_status = 33;
/// A request's new id is not null: the session chooses it.
pub const NB_NOT_PLACEHOLDER: nb_status = 34;
/// The number that the host chose for an object is not free.
pub const NB_NOT_FREE: nb_status = 35;
/// Events wait in the thread's queue: it handles these first.
pub const NB_EVENTS_WAIT: nb_status = 36;
/// No thread has prepared to read.
pub const NB_NOT_PREPARED: nb_status = 37;
/// No thread reads.
pub const NB_NOT_READING: nb_status = 38;
/// No queue has the number; or it was dropped, or is the default queue.
pub const NB_NO_QUEUE: nb_status = 39;

/// As many descriptors wait on each side of a connection, and are in one receive or send.
pub const NB_MOST_DESCRIPTORS: usize = 28;
/// No message has more bytes: so many are enough for the strings and arrays of an action or event.
pub const NB_MOST_BYTES: usize = 65536;
/// So many bytes are enough for what waits for a client, if its room was not set.
pub const NB_MOST_WAITING: usize = 69632;

plain! {
    /// A client of a server.
    nb_client_id: 16, 8 {
        /// Never used again.
        serial: u64 = 0,
        /// Its slot, used again.
        slot: u32 = 8,
    }
}

plain! {
    /// An object. An id with the number 0 is null.
    nb_object_id: 32, 8 {
        /// Never used again.
        serial: u64 = 0,
        /// Its client; zeros in a client's session.
        client: nb_client_id = 8,
        /// The number of its interface in the table.
        interface: u32 = 24,
        /// Its number in the protocol.
        number: u32 = 28,
    }
}

plain! {
    /// A global of a server.
    nb_global_id: 16, 8 {
        /// Never used again.
        serial: u64 = 0,
        /// What clients bind; used again.
        name: u32 = 8,
    }
}

/// No interface: an object argument that may be of any.
pub const NB_INTERFACE_ANY: u32 = 0;
/// `wl_display`.
pub const NB_INTERFACE_DISPLAY: u32 = 1;
/// `wl_registry`.
pub const NB_INTERFACE_REGISTRY: u32 = 2;
/// `wl_callback`.
pub const NB_INTERFACE_CALLBACK: u32 = 3;
/// The first row of the first table that a session was given.
pub const NB_INTERFACE_FIRST: u32 = 4;

plain! {
    /// An interface: its name, its version, and how many requests and events it has.
    nb_interface_row: 20, 4 {
        /// Where its name begins in the text.
        name_at: u32 = 0,
        /// How many bytes the name has.
        name_length: u32 = 4,
        /// Its version.
        version: u32 = 8,
        /// How many requests it has.
        requests: u32 = 12,
        /// How many events it has.
        events: u32 = 16,
    }
}

plain! {
    /// A request or an event.
    nb_message_row: 20, 4 {
        /// Where its name begins in the text.
        name_at: u32 = 0,
        /// How many bytes the name has.
        name_length: u32 = 4,
        /// The version since which it is there.
        since: u32 = 8,
        /// Whether it ends its object (0 or 1).
        is_destructor: u32 = 12,
        /// How many arguments it has.
        arguments: u32 = 16,
    }
}

plain! {
    /// An argument of a message.
    nb_argument_row: 12, 4 {
        /// Its kind, [`NB_INT`] to [`NB_DESCRIPTOR`].
        kind: u32 = 0,
        /// Whether a string or object may be null (0 or 1).
        is_nullable: u32 = 4,
        /// The number of the interface of an object or new id.
        interface: u32 = 8,
    }
}

plain! {
    /// What is wrong with rows.
    nb_table_fault: 8, 4 {
        /// The index of the interface's row among those that were passed, from 0.
        interface: u32 = 0,
        /// What is wrong, [`NB_FAULT_ROW`] to [`NB_FAULT_OUT_OF_MEMORY`].
        fault: u32 = 4,
    }
}

plain! {
    /// What is wrong with whole rows. The last three are 0 unless the fault is [`NB_FAULT_CONTRADICTS`].
    nb_extension_fault: 20, 4 {
        /// The index of the interface's row among those that were passed, from 0.
        interface: u32 = 0,
        /// What is wrong, [`NB_FAULT_ROW`] to [`NB_FAULT_CONTRADICTS`].
        fault: u32 = 4,
        /// Whether the message that differs is an event (0 or 1).
        is_event: u32 = 8,
        /// The opcode of that message.
        opcode: u32 = 12,
        /// The version of the interface in the table.
        version: u32 = 16,
    }
}

/// Nothing is wrong.
pub const NB_FAULT_NONE: u32 = 0;
/// A row names what is not there, has a kind that is none, or its name is not UTF-8.
pub const NB_FAULT_ROW: u32 = 1;
/// A name has a zero byte.
pub const NB_FAULT_ZERO_IN_NAME: u32 = 2;
/// Another interface has the name.
pub const NB_FAULT_DUPLICATE_NAME: u32 = 3;
/// An argument names an interface that is not in the table.
pub const NB_FAULT_UNKNOWN_INTERFACE: u32 = 4;
/// A message makes two objects.
pub const NB_FAULT_TOO_MANY_NEW_IDS: u32 = 5;
/// A new id names no interface.
pub const NB_FAULT_MISSING_CHILD: u32 = 6;
/// The interfaces of a message are not those of its object arguments.
pub const NB_FAULT_ARGUMENT_INTERFACES: u32 = 7;
/// malloc refused.
pub const NB_FAULT_OUT_OF_MEMORY: u32 = 8;
/// A row contradicts the table.
pub const NB_FAULT_CONTRADICTS: u32 = 9;

/// A signed number.
pub const NB_INT: u32 = 0;
/// An unsigned number.
pub const NB_UINT: u32 = 1;
/// A number in 256ths.
pub const NB_FIXED: u32 = 2;
/// A string.
pub const NB_STRING: u32 = 3;
/// An object.
pub const NB_OBJECT: u32 = 4;
/// An object that the message makes.
pub const NB_NEW_ID: u32 = 5;
/// An array of bytes.
pub const NB_ARRAY: u32 = 6;
/// A file descriptor.
pub const NB_DESCRIPTOR: u32 = 7;
/// A string that is null; no kind of a row.
pub const NB_NULL_STRING: u32 = 8;

plain! {
    /// An argument. Fields that its kind does not use are 0.
    nb_argument: 56, 8 {
        /// What it is, [`NB_INT`] to [`NB_NULL_STRING`].
        kind: u32 = 0,
        /// The number, or the descriptor.
        value: i32 = 4,
        /// Where a string or array stands in the bytes that are lent beside.
        at: u32 = 8,
        /// How many bytes it has. A zero follows a string that is handed out, and is not counted.
        length: u32 = 12,
        /// The object; null if its number is 0.
        object: nb_object_id = 16,
        /// Out: the data of that object; 0 if it has none.
        data: u64 = 48,
    }
}

/// An action that is a request.
pub const NB_REQUEST: u32 = 1;
/// An action that is a bind of a global.
pub const NB_BIND: u32 = 2;
/// An action that is a registry, which the host tells of globals.
pub const NB_REGISTRY: u32 = 3;

plain! {
    /// What a client asks of the server. It is open until it is finished.
    nb_action: 120, 8 {
        /// [`NB_REQUEST`], [`NB_BIND`] or [`NB_REGISTRY`].
        kind: u32 = 0,
        /// Of a request: its index among the requests of the sender's interface.
        opcode: u32 = 4,
        /// Of a request: how many arguments it has.
        arguments: u32 = 8,
        /// Of a request: whether finishing it ends its sender (0 or 1).
        is_destructor: u32 = 12,
        /// Of a request: the object that it was sent to. Else null.
        sender: nb_object_id = 16,
        /// The data of the sender, or of the global; 0 of a registry.
        data: u64 = 48,
        /// The object that was made or bound, or the registry; null if none was.
        created: nb_object_id = 56,
        /// The version of `created`; 0 if none was made.
        version: u32 = 88,
        /// How many bytes its strings and arrays take.
        bytes: u32 = 92,
        /// Of a bind: the global.
        global: nb_global_id = 96,
        /// Of a request: the place, counted from 1, of the first argument that is null where the table allows no null; 0 if there
        /// is none.
        forbidden_null: u32 = 112,
    }
}

plain! {
    /// What the server tells a client. It is open until it is finished.
    nb_event: 104, 8 {
        /// Its index among the events of the sender's interface.
        opcode: u32 = 0,
        /// How many arguments it has.
        arguments: u32 = 4,
        /// Whether finishing it ends its sender (0 or 1).
        is_destructor: u32 = 8,
        /// How many bytes its strings and arrays take.
        bytes: u32 = 12,
        /// The object that it was sent to.
        sender: nb_object_id = 16,
        /// The data of the sender; 0 if it has none.
        data: u64 = 48,
        /// The object that the event made; null if none was.
        created: nb_object_id = 56,
        /// The version of `created`; 0 if none was made.
        version: u32 = 88,
        /// Whether the sender has data (0 or 1).
        has_data: u32 = 92,
        /// The place, counted from 1, of the first argument that is null where the table allows no null; 0 if there is none.
        forbidden_null: u32 = 96,
    }
}

plain! {
    /// What a client asks its session to send.
    nb_request: 64, 8 {
        /// The object that it is sent to.
        sender: nb_object_id = 0,
        /// Its index among the requests of the sender's interface.
        opcode: u32 = 32,
        /// Not 0: `data` are given for the object that it makes.
        has_data: u32 = 36,
        /// The data of that object.
        data: u64 = 40,
        /// Not 0: the next two are given.
        has_child: u32 = 48,
        /// The interface of the object that it makes.
        child_interface: u32 = 52,
        /// The version of that object.
        child_version: u32 = 56,
        /// 0.
        unused: u32 = 60,
    }
}

plain! {
    /// An object's number, interface and version.
    nb_object_info: 12, 4 {
        /// Its number in the protocol.
        number: u32 = 0,
        /// The number of its interface in the table.
        interface: u32 = 4,
        /// Its version.
        version: u32 = 8,
    }
}

plain! {
    /// An object of a server's session with the host's data of it.
    nb_held_object: 40, 8 {
        /// The object.
        object: nb_object_id = 0,
        /// The data; 0 if it has none.
        data: u64 = 32,
    }
}

plain! {
    /// What a global offers.
    nb_global_info: 16, 4 {
        /// The number of its interface in the table.
        interface: u32 = 0,
        /// The greatest version that clients may bind.
        version: u32 = 4,
        /// Whether it is disabled (0 or 1).
        is_disabled: u32 = 8,
        /// 0.
        unused: u32 = 12,
    }
}

plain! {
    /// How many bytes and descriptors.
    nb_counts: 8, 4 {
        /// How many bytes.
        bytes: u32 = 0,
        /// How many descriptors.
        descriptors: u32 = 4,
    }
}

plain! {
    /// How much waits in a session.
    nb_waiting: 16, 4 {
        /// What was passed in, and was not read yet.
        received: nb_counts = 0,
        /// What is to be sent.
        to_send: nb_counts = 8,
    }
}

/// A note: a client was inserted.
pub const NB_INSERTED: u32 = 1;
/// A note: a client was killed.
pub const NB_KILLED: u32 = 2;
/// A note: an object with data is gone.
pub const NB_DESTROYED: u32 = 3;

plain! {
    /// A note of what happened in a server's session.
    nb_note: 80, 8 {
        /// [`NB_INSERTED`], [`NB_KILLED`] or [`NB_DESTROYED`].
        kind: u32 = 0,
        /// Of [`NB_KILLED`]: 1 if it was for an error, 0 if the connection closed.
        is_protocol_error: u32 = 4,
        /// The code of that error.
        code: u32 = 8,
        /// The object of that error.
        object_number: u32 = 12,
        /// The client, always.
        client: nb_client_id = 16,
        /// Of [`NB_DESTROYED`]: the object, which is gone.
        object: nb_object_id = 32,
        /// Of [`NB_DESTROYED`]: its data.
        data: u64 = 64,
        /// Of the error: how many bytes its message has. It stands first in the text.
        message_length: u32 = 72,
        /// Of the error: how many bytes the name of the object's interface has. It stands behind the message.
        interface_length: u32 = 76,
    }
}

/// A violation by a malformed message: no object had the number.
pub const NB_VIOLATION_UNKNOWN_SENDER: u32 = 1;
/// A violation by a malformed message: the interface has no such request.
pub const NB_VIOLATION_UNKNOWN_OPCODE: u32 = 2;
/// A violation by a malformed message: by its header the message had fewer bytes than a header.
pub const NB_VIOLATION_SHORT_HEADER: u32 = 3;
/// A violation by a malformed message: the message ended before the argument did.
pub const NB_VIOLATION_MISSING_BYTES: u32 = 4;
/// A violation by a malformed message: the argument, a string, had no zero at its end, or another zero.
pub const NB_VIOLATION_UNENDED_STRING: u32 = 5;
/// A violation: the request is there since the version `wanted`, the object has `found`.
pub const NB_VIOLATION_SINCE_LATER: u32 = 6;
/// A violation: the global `number` could not be bound in the version `wanted`.
pub const NB_VIOLATION_REFUSED_BIND: u32 = 7;
/// A violation: the name of the interface was null in a bind of the global `number` in the version `wanted`.
pub const NB_VIOLATION_NULL_NAME: u32 = 8;
/// A violation: the client could not make an object `number`.
pub const NB_VIOLATION_INVALID_NEW_ID: u32 = 9;
/// A violation: there was no object `number`.
pub const NB_VIOLATION_UNKNOWN_ID: u32 = 10;
/// A violation: the object `number` was of the interface `found`, not `wanted`.
pub const NB_VIOLATION_WRONG_INTERFACE: u32 = 11;
/// A violation: the object was null, and the table does not allow that.
pub const NB_VIOLATION_NULL_OBJECT: u32 = 12;
/// A violation: an object at a number above the limit of objects, which is `wanted`.
pub const NB_VIOLATION_TOO_MANY_OBJECTS: u32 = 13;

plain! {
    /// How a client broke the protocol by a message. What has no meaning for a kind is 0.
    nb_violation: 32, 4 {
        /// What was wrong: [`NB_VIOLATION_UNKNOWN_SENDER`], ..
        kind: u32 = 0,
        /// The number of the object that the message was sent to.
        sender: u32 = 4,
        /// The interface of that object; 0 if no object had the number.
        interface: u32 = 8,
        /// The opcode.
        opcode: u32 = 12,
        /// The place of the argument, from 0, of the kinds 4, 5 and 9 to 12.
        argument: u32 = 16,
        /// An object, or a global.
        number: u32 = 20,
        /// A version, an interface, or the limit of objects.
        wanted: u32 = 24,
        /// A version or an interface.
        found: u32 = 28,
    }
}

/// What is told: a message that was read.
pub const NB_MESSAGE: u32 = 1;
/// What is told: a message that was not read, of an object that is not known or of an opcode that the table lacks.
pub const NB_UNKNOWN_MESSAGE: u32 = 2;
/// What is told: what was sent is no message.
pub const NB_NO_MESSAGE: u32 = 3;

plain! {
    /// A message that went over a connection, as it is told.
    nb_told: 32, 4 {
        /// [`NB_MESSAGE`], [`NB_UNKNOWN_MESSAGE`] or [`NB_NO_MESSAGE`].
        kind: u32 = 0,
        /// 1 if the server sent it, 0 if the client did.
        is_event: u32 = 4,
        /// The number of the object that it was sent to, or that sent it.
        number: u32 = 8,
        /// Of [`NB_MESSAGE`]: the interface of that object.
        interface: u32 = 12,
        /// The opcode.
        opcode: u32 = 16,
        /// Of [`NB_MESSAGE`]: how many arguments it has.
        arguments: u32 = 20,
        /// Of [`NB_MESSAGE`]: how many bytes its strings and arrays take, with the zeros behind each.
        bytes: u32 = 24,
        /// 1 if no more is told of the side that sent it, else 0.
        is_last: u32 = 28,
    }
}

/// A run of messages: nothing is to be known of the last one.
pub const NB_PLAIN_RUN: u32 = 0;
/// A run of messages: the last one, or the one skipped behind it, deletes an id.
pub const NB_DELETES_ID: u32 = 1;
/// A run of messages: no event comes of the last one, or of the one skipped behind it.
pub const NB_PASSED_OVER: u32 = 2;
/// A run of messages: too few descriptors came for the one behind it.
pub const NB_LACKS_DESCRIPTORS: u32 = 3;

plain! {
    /// Messages that came and that a client's session is to have together.
    nb_run: 44, 4 {
        /// How many bytes they are.
        bytes: u32 = 0,
        /// How many descriptors they bring.
        descriptors: u32 = 4,
        /// How many bytes behind them are a message that the session is not to have.
        skipped: u32 = 8,
        /// [`NB_PLAIN_RUN`], [`NB_DELETES_ID`], [`NB_PASSED_OVER`] or [`NB_LACKS_DESCRIPTORS`].
        kind: u32 = 12,
        /// The number of the object that sent the message.
        sender: u32 = 16,
        /// That object's interface; 0 if there is none.
        interface: u32 = 20,
        /// The opcode.
        opcode: u32 = 24,
        /// How many bytes the message has.
        size: u32 = 28,
        /// How many descriptors it brings.
        needed: u32 = 32,
        /// Of [`NB_PASSED_OVER`]: 1 if some event of the interface brings descriptors, else 0.
        may_bring: u32 = 36,
        /// Of [`NB_DELETES_ID`]: the id.
        number: u32 = 40,
    }
}

plain! {
    /// A client that is gone.
    nb_gone: 32, 8 {
        /// The client.
        client: nb_client_id = 0,
        /// Its data.
        data: u64 = 16,
        /// What is still to be sent.
        waiting: nb_counts = 24,
    }
}

/// A client's session has no error.
pub const NB_NO_ERROR: u32 = 0;
/// The socket failed, or the connection ended.
pub const NB_ERROR_OF_IO: u32 = 1;
/// The server sent an error, or broke the protocol.
pub const NB_ERROR_OF_PROTOCOL: u32 = 2;

plain! {
    /// The error of a client's session.
    nb_error: 28, 4 {
        /// [`NB_NO_ERROR`], [`NB_ERROR_OF_IO`] or [`NB_ERROR_OF_PROTOCOL`].
        kind: u32 = 0,
        /// Of [`NB_ERROR_OF_IO`]: what happened.
        status: nb_status = 4,
        /// Of [`NB_IO_ERROR`]: the number of the system.
        number: i32 = 8,
        /// Of [`NB_ERROR_OF_PROTOCOL`]: the code that the server sent.
        code: u32 = 12,
        /// Of [`NB_ERROR_OF_PROTOCOL`]: the object that the server named.
        object_number: u32 = 16,
        /// How many bytes the message has. It stands first in the text.
        message_length: u32 = 20,
        /// How many bytes the name of the object's interface has. It stands behind the message.
        interface_length: u32 = 24,
    }
}

/// An event of a queue is handed out.
pub const NB_HANDED: u32 = 0;
/// It is dropped, since the session failed.
pub const NB_SESSION_FAILED: u32 = 1;
/// It is dropped, since its queue was.
pub const NB_QUEUE_DROPPED: u32 = 2;
/// It is dropped, since the object that it is for was destroyed.
pub const NB_SENDER_DESTROYED: u32 = 3;

/// A slot has no object.
pub const NB_SLOT_FREE: u32 = 0;
/// Its object is not destroyed.
pub const NB_SLOT_ALIVE: u32 = 1;
/// Its object was destroyed, and was not told unused yet.
pub const NB_SLOT_DESTROYED: u32 = 2;

plain! {
    /// Which of several threads reads; zeros at first. Its fields are the library's.
    nb_readers: 24, 8 {
        /// How many threads have prepared, and neither began nor cancelled.
        prepared: u64 = 0,
        /// How many turns have ended.
        ended: u64 = 8,
        /// Not 0 if a thread reads.
        is_reading: u32 = 16,
    }
}

plain! {
    /// What a thread that begins has to do.
    nb_turn: 16, 8 {
        /// If it waits: it goes on once another number of turns has ended. Else 0.
        ended: u64 = 0,
        /// 1 if it reads, and 0 if it waits.
        reads: u32 = 8,
    }
}

plain! {
    /// An event that left its queue.
    nb_queued_event: 40, 8 {
        /// By which it is finished, if it is handed out; else 0.
        ticket: u64 = 0,
        /// The host's, as it was put.
        content: u64 = 8,
        /// The slot of the object that it is for.
        sender: usize = 16,
        /// How many objects are among its arguments.
        arguments: usize = 24,
        /// [`NB_HANDED`], or why it is dropped.
        outcome: u32 = 32,
    }
}

plain! {
    /// What a slot says of its object.
    nb_queued_object: 24, 8 {
        /// In which its events wait that are still to come.
        queue: usize = 0,
        /// The host's, as the object was added.
        content: u64 = 8,
        /// [`NB_SLOT_FREE`], [`NB_SLOT_ALIVE`] or [`NB_SLOT_DESTROYED`].
        fate: u32 = 16,
    }
}

/// The side of the client.
pub const NB_CLIENT_SIDE: u32 = 0;
/// The side of the compositor.
pub const NB_SERVER_SIDE: u32 = 1;

/// It has not ended.
pub const NB_NOT_ENDED: u32 = 0;
/// What a side sent is no message.
pub const NB_END_MALFORMED: u32 = 1;
/// There is no such object, or its interface has no such message.
pub const NB_END_UNKNOWN: u32 = 2;
/// The client has ended the object.
pub const NB_END_DESTROYED: u32 = 3;
/// The message is not as long as its arguments.
pub const NB_END_LENGTH: u32 = 4;
/// The version of the object does not have the request.
pub const NB_END_VERSION: u32 = 5;
/// The policy refuses the request.
pub const NB_END_POLICY: u32 = 6;
/// The client was not told last of such a global, or not in this version.
pub const NB_END_GLOBAL: u32 = 7;
/// A new object may not have this number.
pub const NB_END_NEW_ID: u32 = 8;
/// A new object has a number beyond the limit.
pub const NB_END_OBJECTS: u32 = 9;
/// More numbers of globals were announced than the limit.
pub const NB_END_GLOBALS: u32 = 10;
/// There are descriptors that no message takes, or a message waits for one.
pub const NB_END_DESCRIPTORS: u32 = 11;
/// malloc refused.
pub const NB_END_OUT_OF_MEMORY: u32 = 12;
/// `nb_guard_hang_up` was called.
pub const NB_END_HUNG_UP: u32 = 13;

plain! {
    /// How a guard's connection ended.
    nb_end: 16, 4 {
        /// [`NB_NOT_ENDED`], or why.
        reason: u32 = 0,
        /// The side that broke a rule; else 0.
        side: u32 = 4,
        /// The number of the object whose message broke it.
        object: u32 = 8,
        /// The opcode of that message.
        opcode: u32 = 12,
    }
}

// SAFETY: the declarations are those of the header, which `tests/header.rs` compares. A `safe` one takes no pointer but
// references, so each names a value of its type for the call, and what is written overlaps nothing else.
unsafe extern "C" {
    /// The version of the library: 65536 times the major number, 256 times the minor number, and the patch.
    pub safe fn nb_version() -> u32;
    /// Reads the signature of a message.
    pub fn nb_read_signature(
        signature: *const u8,
        signature_length: usize,
        message: &mut nb_message_row,
        arguments: *mut nb_argument_row,
        argument_count: usize,
    ) -> nb_status;
    /// Makes a server's session.
    pub fn nb_server_new(
        place: &mut nb_server,
        text: *const u8,
        text_length: usize,
        interfaces: *const nb_interface_row,
        interface_count: usize,
        messages: *const nb_message_row,
        message_count: usize,
        arguments: *const nb_argument_row,
        argument_count: usize,
        fault: &mut nb_table_fault,
    ) -> nb_status;
    /// Ends the session.
    pub safe fn nb_server_end(place: &mut nb_server) -> nb_status;
    /// Appends interfaces to the table.
    pub fn nb_server_add_interfaces(
        place: &mut nb_server,
        text: *const u8,
        text_length: usize,
        interfaces: *const nb_interface_row,
        interface_count: usize,
        messages: *const nb_message_row,
        message_count: usize,
        arguments: *const nb_argument_row,
        argument_count: usize,
        fault: &mut nb_table_fault,
    ) -> nb_status;
    /// Extends the table by whole rows.
    pub fn nb_server_merge_interfaces(
        place: &mut nb_server,
        text: *const u8,
        text_length: usize,
        interfaces: *const nb_interface_row,
        interface_count: usize,
        messages: *const nb_message_row,
        message_count: usize,
        arguments: *const nb_argument_row,
        argument_count: usize,
        fault: &mut nb_extension_fault,
    ) -> nb_status;
    /// Takes one whole interface into the table, and writes its number.
    pub fn nb_server_join_interface(
        place: &mut nb_server,
        text: *const u8,
        text_length: usize,
        interfaces: *const nb_interface_row,
        interface_count: usize,
        messages: *const nb_message_row,
        message_count: usize,
        arguments: *const nb_argument_row,
        argument_count: usize,
        number: &mut u32,
        fault: &mut nb_extension_fault,
    ) -> nb_status;
    /// Whether malloc refused in the last call.
    pub safe fn nb_server_memory_refused(place: &mut nb_server, is_refused: &mut u32) -> nb_status;
    /// Sets how far the buffers of clients to come may grow.
    pub safe fn nb_server_set_default_max_buffer_size(
        place: &mut nb_server,
        size: u64,
    ) -> nb_status;
    /// Sets whether requests with a null that the table forbids are refused.
    pub safe fn nb_server_refuse_nulls(place: &mut nb_server, is_on: u32) -> nb_status;
    /// Limits how many objects each client may have.
    pub safe fn nb_server_set_object_limit(place: &mut nb_server, limit: u32) -> nb_status;
    /// Sets whether the messages are told of each client that is inserted from now on.
    pub safe fn nb_server_tell_messages(place: &mut nb_server, is_on: u32) -> nb_status;
    /// Sets how far the buffers of a client may grow.
    pub safe fn nb_server_set_max_buffer_size(
        place: &mut nb_server,
        client: &nb_client_id,
        size: u64,
    ) -> nb_status;
    /// Sets how many bytes wait for the host.
    pub safe fn nb_server_set_room(
        place: &mut nb_server,
        client: &nb_client_id,
        room: u64,
    ) -> nb_status;
    /// Inserts a client.
    pub fn nb_server_insert_client(
        place: &mut nb_server,
        data: u64,
        groups: u64,
        hidden: *const nb_global_id,
        hidden_count: usize,
        client: &mut nb_client_id,
    ) -> nb_status;
    /// The data of a client.
    pub safe fn nb_server_client_data(
        place: &mut nb_server,
        client: &nb_client_id,
        data: &mut u64,
    ) -> nb_status;
    /// The live clients.
    pub fn nb_server_clients(
        place: &mut nb_server,
        clients: *mut nb_client_id,
        room: usize,
        count: &mut u32,
    ) -> nb_status;
    /// Kills a client.
    pub safe fn nb_server_kill_client(place: &mut nb_server, client: &nb_client_id) -> nb_status;
    /// The host received this from the client.
    pub fn nb_server_received(
        place: &mut nb_server,
        client: &nb_client_id,
        bytes: *const u8,
        length: usize,
        descriptors: *const i32,
        count: usize,
    ) -> nb_status;
    /// The client has closed the connection.
    pub safe fn nb_server_received_end(place: &mut nb_server, client: &nb_client_id) -> nb_status;
    /// A receive failed with this errno.
    pub safe fn nb_server_receive_failed(
        place: &mut nb_server,
        client: &nb_client_id,
        number: i32,
    ) -> nb_status;
    /// A send failed: the client is killed.
    pub safe fn nb_server_send_failed(place: &mut nb_server, client: &nb_client_id) -> nb_status;
    /// Hands out the next action of a client.
    pub fn nb_server_next_action(
        place: &mut nb_server,
        client: &nb_client_id,
        action: &mut nb_action,
        arguments: *mut nb_argument,
        argument_room: usize,
        bytes: *mut u8,
        byte_room: usize,
    ) -> nb_status;
    /// Finishes a request that made no object.
    pub safe fn nb_server_finish_request(place: &mut nb_server, client: &nb_client_id)
        -> nb_status;
    /// Finishes a request that made an object.
    pub safe fn nb_server_finish_request_with(
        place: &mut nb_server,
        client: &nb_client_id,
        data: u64,
        is_kept: &mut u32,
    ) -> nb_status;
    /// Finishes a bind.
    pub safe fn nb_server_finish_bind(
        place: &mut nb_server,
        client: &nb_client_id,
        data: u64,
        is_kept: &mut u32,
    ) -> nb_status;
    /// Finishes the open action, whatever it is, with the data 0 for the object that it made.
    pub safe fn nb_server_finish_action(
        place: &mut nb_server,
        client: &nb_client_id,
        action: &nb_action,
    ) -> nb_status;
    /// Sends an event of an object.
    pub fn nb_server_send_event(
        place: &mut nb_server,
        sender: &nb_object_id,
        opcode: u32,
        arguments: *const nb_argument,
        argument_count: usize,
        bytes: *const u8,
        byte_count: usize,
    ) -> nb_status;
    /// Ends a client for an error.
    pub fn nb_server_post_error(
        place: &mut nb_server,
        object: &nb_object_id,
        code: u32,
        message: *const u8,
        length: usize,
    ) -> nb_status;
    /// Tells the next message of a client, or to it.
    pub fn nb_server_next_told(
        place: &mut nb_server,
        client: &nb_client_id,
        told: &mut nb_told,
        arguments: *mut nb_argument,
        argument_room: usize,
        bytes: *mut u8,
        byte_room: usize,
    ) -> nb_status;
    /// Makes an object of the server for a client.
    pub safe fn nb_server_create_object(
        place: &mut nb_server,
        client: &nb_client_id,
        interface: u32,
        version: u32,
        has_data: u32,
        data: u64,
        object: &mut nb_object_id,
    ) -> nb_status;
    /// Destroys an object.
    pub safe fn nb_server_destroy_object(place: &mut nb_server, object: &nb_object_id)
        -> nb_status;
    /// An object's number, interface and version.
    pub safe fn nb_server_object_info(
        place: &mut nb_server,
        object: &nb_object_id,
        info: &mut nb_object_info,
    ) -> nb_status;
    /// An object's data.
    pub safe fn nb_server_object_data(
        place: &mut nb_server,
        object: &nb_object_id,
        data: &mut u64,
    ) -> nb_status;
    /// Sets an object's data.
    pub safe fn nb_server_set_object_data(
        place: &mut nb_server,
        object: &nb_object_id,
        data: u64,
    ) -> nb_status;
    /// The client's object with this number.
    pub safe fn nb_server_object_for_protocol_id(
        place: &mut nb_server,
        client: &nb_client_id,
        interface: u32,
        number: u32,
        object: &mut nb_object_id,
    ) -> nb_status;
    /// The objects of a client.
    pub fn nb_server_objects(
        place: &mut nb_server,
        client: &nb_client_id,
        objects: *mut nb_object_id,
        room: usize,
        count: &mut u32,
    ) -> nb_status;
    /// Makes an object at a number of the client's own.
    pub safe fn nb_server_create_object_at(
        place: &mut nb_server,
        client: &nb_client_id,
        interface: u32,
        version: u32,
        number: u32,
        has_data: u32,
        data: u64,
        object: &mut nb_object_id,
    ) -> nb_status;
    /// Finds or makes the object that is to stand for something of the program's, with this version and data.
    pub safe fn nb_server_claim_object(
        place: &mut nb_server,
        client: &nb_client_id,
        interface: u32,
        version: u32,
        number: u32,
        data: u64,
        object: &mut nb_object_id,
    ) -> nb_status;
    /// Sets an object's version.
    pub safe fn nb_server_set_object_version(
        place: &mut nb_server,
        object: &nb_object_id,
        version: u32,
    ) -> nb_status;
    /// The client's object with this number, and its data.
    pub safe fn nb_server_object_by_number(
        place: &mut nb_server,
        client: &nb_client_id,
        number: u32,
        object: &mut nb_held_object,
    ) -> nb_status;
    /// The objects of a client with their data.
    pub fn nb_server_held_objects(
        place: &mut nb_server,
        client: &nb_client_id,
        objects: *mut nb_held_object,
        room: usize,
        count: &mut u32,
    ) -> nb_status;
    /// The id that the next client will have.
    pub safe fn nb_server_next_client_id(
        place: &mut nb_server,
        client: &mut nb_client_id,
    ) -> nb_status;
    /// The id that the next global will have.
    pub safe fn nb_server_next_global_id(
        place: &mut nb_server,
        global: &mut nb_global_id,
    ) -> nb_status;
    /// Creates a global.
    pub fn nb_server_create_global(
        place: &mut nb_server,
        interface: u32,
        version: u32,
        data: u64,
        groups: u64,
        hidden: *const nb_client_id,
        hidden_count: usize,
        global: &mut nb_global_id,
    ) -> nb_status;
    /// Announces a global no more.
    pub safe fn nb_server_disable_global(place: &mut nb_server, global: &nb_global_id)
        -> nb_status;
    /// Removes a global.
    pub safe fn nb_server_remove_global(place: &mut nb_server, global: &nb_global_id) -> nb_status;
    /// Keeps the names of globals, or no longer.
    pub safe fn nb_server_keep_global_names(place: &mut nb_server, keep: u32) -> nb_status;
    /// Hands out the registries that clients ask for, or no longer.
    pub safe fn nb_server_hand_out_registries(place: &mut nb_server, hand_out: u32) -> nb_status;
    /// Tells a registry that was handed out of a global.
    pub safe fn nb_server_announce_global(
        place: &mut nb_server,
        registry: &nb_object_id,
        global: &nb_global_id,
    ) -> nb_status;
    /// Tells each registry that was told of a global that it is gone.
    pub safe fn nb_server_withdraw_global(
        place: &mut nb_server,
        global: &nb_global_id,
    ) -> nb_status;
    /// What a global offers.
    pub safe fn nb_server_global_info(
        place: &mut nb_server,
        global: &nb_global_id,
        info: &mut nb_global_info,
    ) -> nb_status;
    /// A global's data.
    pub safe fn nb_server_global_data(
        place: &mut nb_server,
        global: &nb_global_id,
        data: &mut u64,
    ) -> nb_status;
    /// The name that a client binds a global by.
    pub safe fn nb_server_global_name(
        place: &mut nb_server,
        global: &nb_global_id,
        client: &nb_client_id,
        name: &mut u32,
    ) -> nb_status;
    /// The next client to which something is to be sent.
    pub safe fn nb_server_next_writable(
        place: &mut nb_server,
        client: &mut nb_client_id,
    ) -> nb_status;
    /// Gets ready what waits for one client.
    pub safe fn nb_server_flush_client(place: &mut nb_server, client: &nb_client_id) -> nb_status;
    /// Copies what is to be sent to a client next.
    pub fn nb_server_to_send(
        place: &mut nb_server,
        client: &nb_client_id,
        bytes: *mut u8,
        byte_room: usize,
        descriptors: *mut i32,
        descriptor_room: usize,
        counts: &mut nb_counts,
    ) -> nb_status;
    /// sendmsg took this many bytes.
    pub safe fn nb_server_sent(
        place: &mut nb_server,
        client: &nb_client_id,
        count: u32,
    ) -> nb_status;
    /// How much waits for a client, and of it.
    pub safe fn nb_server_waiting(
        place: &mut nb_server,
        client: &nb_client_id,
        waiting: &mut nb_waiting,
    ) -> nb_status;
    /// How a client broke the protocol, if it was killed for a message.
    pub safe fn nb_server_violation(
        place: &mut nb_server,
        client: &nb_client_id,
        violation: &mut nb_violation,
    ) -> nb_status;
    /// Takes the clients out that were killed.
    pub safe fn nb_server_cleanup(place: &mut nb_server) -> nb_status;
    /// The next client that was taken out.
    pub fn nb_server_next_gone(
        place: &mut nb_server,
        gone: &mut nb_gone,
        bytes: *mut u8,
        byte_room: usize,
        descriptors: *mut i32,
        descriptor_room: usize,
    ) -> nb_status;
    /// The next note.
    pub fn nb_server_next_note(
        place: &mut nb_server,
        note: &mut nb_note,
        text: *mut u8,
        text_room: usize,
    ) -> nb_status;
    /// Sets whether notes are kept until they are handed out.
    pub safe fn nb_server_keep_notes(place: &mut nb_server, is_on: u32) -> nb_status;
    /// The next descriptor that no call will hand out.
    pub safe fn nb_server_next_dropped(place: &mut nb_server, descriptor: &mut i32) -> nb_status;

    /// Makes a client's session.
    pub fn nb_client_connect(
        place: &mut nb_client,
        text: *const u8,
        text_length: usize,
        interfaces: *const nb_interface_row,
        interface_count: usize,
        messages: *const nb_message_row,
        message_count: usize,
        arguments: *const nb_argument_row,
        argument_count: usize,
        fault: &mut nb_table_fault,
    ) -> nb_status;
    /// Ends the session.
    pub safe fn nb_client_end(place: &mut nb_client) -> nb_status;
    /// Appends interfaces to the table.
    pub fn nb_client_add_interfaces(
        place: &mut nb_client,
        text: *const u8,
        text_length: usize,
        interfaces: *const nb_interface_row,
        interface_count: usize,
        messages: *const nb_message_row,
        message_count: usize,
        arguments: *const nb_argument_row,
        argument_count: usize,
        fault: &mut nb_table_fault,
    ) -> nb_status;
    /// Extends the table by whole rows.
    pub fn nb_client_merge_interfaces(
        place: &mut nb_client,
        text: *const u8,
        text_length: usize,
        interfaces: *const nb_interface_row,
        interface_count: usize,
        messages: *const nb_message_row,
        message_count: usize,
        arguments: *const nb_argument_row,
        argument_count: usize,
        fault: &mut nb_extension_fault,
    ) -> nb_status;
    /// Takes one whole interface into the table, and writes its number.
    pub fn nb_client_join_interface(
        place: &mut nb_client,
        text: *const u8,
        text_length: usize,
        interfaces: *const nb_interface_row,
        interface_count: usize,
        messages: *const nb_message_row,
        message_count: usize,
        arguments: *const nb_argument_row,
        argument_count: usize,
        number: &mut u32,
        fault: &mut nb_extension_fault,
    ) -> nb_status;
    /// Whether malloc refused in the last call.
    pub safe fn nb_client_memory_refused(place: &mut nb_client, is_refused: &mut u32) -> nb_status;
    /// Sets how far the buffers may grow.
    pub safe fn nb_client_set_max_buffer_size(
        place: &mut nb_client,
        has_limit: u32,
        size: u64,
    ) -> nb_status;
    /// Sets whether messages of unknown senders are passed over.
    pub safe fn nb_client_pass_over_unknown_senders(
        place: &mut nb_client,
        passes: u32,
    ) -> nb_status;
    /// Sets whether messages are told, of a session of which nothing was received or sent.
    pub safe fn nb_client_tell_messages(place: &mut nb_client, is_on: u32) -> nb_status;
    /// Sets whether an event with a null that the table forbids ends the session.
    pub safe fn nb_client_refuse_nulls(place: &mut nb_client, is_on: u32) -> nb_status;
    /// Sets how many bytes wait for the host.
    pub safe fn nb_client_set_room(place: &mut nb_client, room: u64) -> nb_status;
    /// The display.
    pub safe fn nb_client_display(place: &mut nb_client, display: &mut nb_object_id) -> nb_status;
    /// The host received this from the server.
    pub fn nb_client_received(
        place: &mut nb_client,
        bytes: *const u8,
        length: usize,
        descriptors: *const i32,
        count: usize,
    ) -> nb_status;
    /// Which messages at the front of what came the session is to have together.
    pub fn nb_client_next_run(
        place: &mut nb_client,
        bytes: *const u8,
        length: usize,
        descriptors: u32,
        run: &mut nb_run,
    ) -> nb_status;
    /// The server has closed the connection.
    pub safe fn nb_client_received_end(place: &mut nb_client) -> nb_status;
    /// A receive failed with this errno.
    pub safe fn nb_client_receive_failed(place: &mut nb_client, number: i32) -> nb_status;
    /// Ends the session, for a reason of the host's own.
    pub safe fn nb_client_fail(place: &mut nb_client, number: i32) -> nb_status;
    /// A send failed with this errno.
    pub safe fn nb_client_send_failed(place: &mut nb_client, number: i32) -> nb_status;
    /// Hands out the next event.
    pub fn nb_client_next_event(
        place: &mut nb_client,
        event: &mut nb_event,
        arguments: *mut nb_argument,
        argument_room: usize,
        bytes: *mut u8,
        byte_room: usize,
    ) -> nb_status;
    /// Finishes an event that made no object.
    pub safe fn nb_client_finish_event(place: &mut nb_client) -> nb_status;
    /// Finishes an event that made an object.
    pub safe fn nb_client_finish_event_with(
        place: &mut nb_client,
        data: u64,
        is_kept: &mut u32,
    ) -> nb_status;
    /// Tells the next message that was read or written.
    pub fn nb_client_next_told(
        place: &mut nb_client,
        told: &mut nb_told,
        arguments: *mut nb_argument,
        argument_room: usize,
        bytes: *mut u8,
        byte_room: usize,
    ) -> nb_status;
    /// Sends a request.
    pub fn nb_client_send_request(
        place: &mut nb_client,
        request: &nb_request,
        arguments: *const nb_argument,
        argument_count: usize,
        bytes: *const u8,
        byte_count: usize,
        created: &mut nb_object_id,
    ) -> nb_status;
    /// The object with this number.
    pub safe fn nb_client_object_for_protocol_id(
        place: &mut nb_client,
        number: u32,
        object: &mut nb_object_id,
    ) -> nb_status;
    /// An object's number, interface and version.
    pub safe fn nb_client_object_info(
        place: &mut nb_client,
        object: &nb_object_id,
        info: &mut nb_object_info,
    ) -> nb_status;
    /// An object's data.
    pub safe fn nb_client_object_data(
        place: &mut nb_client,
        object: &nb_object_id,
        data: &mut u64,
    ) -> nb_status;
    /// Sets an object's data.
    pub safe fn nb_client_set_object_data(
        place: &mut nb_client,
        object: &nb_object_id,
        data: u64,
    ) -> nb_status;
    /// Destroys an object.
    pub safe fn nb_client_destroy_object(place: &mut nb_client, object: &nb_object_id)
        -> nb_status;
    /// Gives an object up for good: no note tells of it.
    pub safe fn nb_client_give_up_object(place: &mut nb_client, object: &nb_object_id)
        -> nb_status;
    /// Takes an object out that both sides have given up.
    pub safe fn nb_client_reclaim(place: &mut nb_client, object: &nb_object_id) -> nb_status;
    /// Hands what waits over to [`nb_client_to_send`].
    pub safe fn nb_client_flush(place: &mut nb_client) -> nb_status;
    /// Copies what is to be sent next.
    pub fn nb_client_to_send(
        place: &mut nb_client,
        bytes: *mut u8,
        byte_room: usize,
        descriptors: *mut i32,
        descriptor_room: usize,
        counts: &mut nb_counts,
    ) -> nb_status;
    /// sendmsg took this many bytes.
    pub safe fn nb_client_sent(place: &mut nb_client, count: u32) -> nb_status;
    /// How much waits.
    pub safe fn nb_client_waiting(place: &mut nb_client, waiting: &mut nb_waiting) -> nb_status;
    /// The session's error.
    pub fn nb_client_last_error(
        place: &mut nb_client,
        error: &mut nb_error,
        text: *mut u8,
        text_room: usize,
    ) -> nb_status;
    /// The next object with data that was destroyed.
    pub safe fn nb_client_next_note(
        place: &mut nb_client,
        destroyed: &mut nb_object_id,
        data: &mut u64,
    ) -> nb_status;
    /// Sets whether the ids of objects that leave their numbers are kept.
    pub safe fn nb_client_keep_freed(place: &mut nb_client, keeps: u32) -> nb_status;
    /// The next id of an object that left its number.
    pub safe fn nb_client_next_freed(place: &mut nb_client, object: &mut nb_object_id)
        -> nb_status;
    /// The next descriptor that no call will hand out.
    pub safe fn nb_client_next_dropped(place: &mut nb_client, descriptor: &mut i32) -> nb_status;

    /// A thread is about to read.
    pub safe fn nb_readers_prepare(readers: &mut nb_readers, has_events: u32) -> nb_status;
    /// A thread that prepared goes on.
    pub safe fn nb_readers_begin(readers: &mut nb_readers, turn: &mut nb_turn) -> nb_status;
    /// The thread that reads has read.
    pub safe fn nb_readers_end(readers: &mut nb_readers) -> nb_status;
    /// A thread that prepared does not read.
    pub safe fn nb_readers_cancel(readers: &mut nb_readers, ends: &mut u32) -> nb_status;
    /// How many turns have ended.
    pub safe fn nb_readers_ended(readers: &nb_readers, ended: &mut u64) -> nb_status;

    /// Makes queues of events.
    pub safe fn nb_queues_start(place: &mut nb_queues) -> nb_status;
    /// Ends the queues.
    pub safe fn nb_queues_end(place: &mut nb_queues) -> nb_status;
    /// Makes a queue.
    pub safe fn nb_queues_new_queue(place: &mut nb_queues, queue: &mut usize) -> nb_status;
    /// Drops a queue.
    pub safe fn nb_queues_drop_queue(place: &mut nb_queues, queue: usize) -> nb_status;
    /// Whether an event waits in the queue.
    pub safe fn nb_queues_has_events(
        place: &mut nb_queues,
        queue: usize,
        has_events: &mut u32,
    ) -> nb_status;
    /// The session has failed: no event is handed out any more.
    pub safe fn nb_queues_fail(place: &mut nb_queues) -> nb_status;
    /// Adds an object with this content, whose events wait in this queue.
    pub safe fn nb_queues_add(
        place: &mut nb_queues,
        queue: usize,
        content: u64,
        object: &mut usize,
    ) -> nb_status;
    /// Gives an object another queue, for its later events.
    pub safe fn nb_queues_set_queue(
        place: &mut nb_queues,
        object: usize,
        queue: usize,
    ) -> nb_status;
    /// Says that the object is destroyed.
    pub safe fn nb_queues_destroy(place: &mut nb_queues, object: usize) -> nb_status;
    /// What a slot says of its object.
    pub safe fn nb_queues_object(
        place: &mut nb_queues,
        slot: usize,
        object: &mut nb_queued_object,
    ) -> nb_status;
    /// An object that no event names any more, and its content.
    pub safe fn nb_queues_next_unused(
        place: &mut nb_queues,
        object: &mut usize,
        content: &mut u64,
    ) -> nb_status;
    /// Puts an event into the queue of its sender.
    pub fn nb_queues_put(
        place: &mut nb_queues,
        sender: usize,
        arguments: *const usize,
        argument_count: usize,
        content: u64,
    ) -> nb_status;
    /// Takes the first event out of a queue.
    pub safe fn nb_queues_next_of(
        place: &mut nb_queues,
        queue: usize,
        event: &mut nb_queued_event,
    ) -> nb_status;
    /// The event that is in hand with this ticket.
    pub safe fn nb_queues_event(
        place: &mut nb_queues,
        ticket: u64,
        event: &mut nb_queued_event,
    ) -> nb_status;
    /// An object among the arguments of the event in hand.
    pub safe fn nb_queues_argument(
        place: &mut nb_queues,
        ticket: u64,
        index: usize,
        object: &mut usize,
    ) -> nb_status;
    /// Ends the event in hand.
    pub safe fn nb_queues_finish(
        place: &mut nb_queues,
        ticket: u64,
        content: &mut u64,
    ) -> nb_status;

    /// Makes a policy that allows nothing.
    pub fn nb_policy_new(
        place: &mut nb_policy,
        text: *const u8,
        text_length: usize,
        interfaces: *const nb_interface_row,
        interface_count: usize,
        messages: *const nb_message_row,
        message_count: usize,
        arguments: *const nb_argument_row,
        argument_count: usize,
        objects: u32,
        globals: usize,
        waiting: usize,
        fault: &mut nb_table_fault,
    ) -> nb_status;
    /// Ends the policy.
    pub safe fn nb_policy_end(place: &mut nb_policy) -> nb_status;
    /// Allows globals of an interface, up to a version.
    pub fn nb_policy_allow(
        place: &mut nb_policy,
        interface: *const u8,
        interface_length: usize,
        version: u32,
    ) -> nb_status;
    /// Says that a request ends the connection.
    pub fn nb_policy_refuse(
        place: &mut nb_policy,
        interface: *const u8,
        interface_length: usize,
        request: *const u8,
        request_length: usize,
    ) -> nb_status;
    /// Says that a request is dropped.
    pub fn nb_policy_ignore(
        place: &mut nb_policy,
        interface: *const u8,
        interface_length: usize,
        request: *const u8,
        request_length: usize,
    ) -> nb_status;

    /// Makes a guard.
    pub safe fn nb_guard_new(place: &mut nb_guard) -> nb_status;
    /// Ends the guard.
    pub safe fn nb_guard_end(place: &mut nb_guard) -> nb_status;
    /// Takes what was received from a side.
    pub fn nb_guard_received(
        place: &mut nb_guard,
        policy: &mut nb_policy,
        side: u32,
        bytes: *const u8,
        byte_count: usize,
        descriptors: *const i32,
        descriptor_count: usize,
    ) -> nb_status;
    /// Copies what is to be sent to a side next.
    pub fn nb_guard_to_send(
        place: &mut nb_guard,
        side: u32,
        bytes: *mut u8,
        byte_room: usize,
        descriptors: *mut i32,
        descriptor_room: usize,
        counts: &mut nb_counts,
    ) -> nb_status;
    /// sendmsg took this many bytes for a side.
    pub safe fn nb_guard_sent(place: &mut nb_guard, side: u32, count: u32) -> nb_status;
    /// The next descriptor that does not go on.
    pub safe fn nb_guard_next_released(place: &mut nb_guard, descriptor: &mut i32) -> nb_status;
    /// Ends the connection, since a side has hung up.
    pub safe fn nb_guard_hang_up(place: &mut nb_guard) -> nb_status;
    /// How the connection ended.
    pub safe fn nb_guard_how_ended(place: &mut nb_guard, end: &mut nb_end) -> nb_status;

    /// Makes a relay.
    pub fn nb_relay_new(
        place: &mut nb_relay,
        text: *const u8,
        text_length: usize,
        interfaces: *const nb_interface_row,
        interface_count: usize,
        messages: *const nb_message_row,
        message_count: usize,
        arguments: *const nb_argument_row,
        argument_count: usize,
        log_only: u32,
        fault: &mut nb_table_fault,
    ) -> nb_status;
    /// Ends the relay.
    pub safe fn nb_relay_end(place: &mut nb_relay) -> nb_status;
    /// Takes what was received from a side.
    pub fn nb_relay_received(
        place: &mut nb_relay,
        side: u32,
        bytes: *const u8,
        byte_count: usize,
        descriptors: *const i32,
        descriptor_count: usize,
    ) -> nb_status;
    /// Copies what is to be sent to a side next.
    pub fn nb_relay_to_send(
        place: &mut nb_relay,
        side: u32,
        bytes: *mut u8,
        byte_room: usize,
        descriptors: *mut i32,
        descriptor_room: usize,
        counts: &mut nb_counts,
    ) -> nb_status;
    /// sendmsg took this many bytes for a side.
    pub safe fn nb_relay_sent(place: &mut nb_relay, side: u32, count: u32) -> nb_status;
    /// The next line of the log.
    pub fn nb_relay_next_line(
        place: &mut nb_relay,
        text: *mut u8,
        text_room: usize,
        length: &mut usize,
    ) -> nb_status;
}
