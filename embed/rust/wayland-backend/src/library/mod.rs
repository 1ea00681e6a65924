//! The sessions of `libnumbyroga`, and its turns of threads that read, behind safe methods. The `unsafe` code of the crate
//! stands in this module alone.
//!
//! Three things make a method safe that the C call is not:
//!
//! - *Memory.* A slice is lent with its own length, and the session writes into buffers of its own wrapper.
//! - *Threads.* Each method takes `&mut self`.
//! - *Descriptors.* The session's are numbers. An [`OwnedFd`] that goes in is taken apart when the call has succeeded,
//!   and one is made of each number that comes out. The library hands each one back once, so each has one owner.
//!
//! Where memory is wanted and there is none the process aborts, as with Rust's own collections. So no method answers
//! it. Ids, actions, events and notes are the library's plain structs.

use std::alloc::{handle_alloc_error, Layout};
use std::os::fd::{BorrowedFd, FromRawFd, OwnedFd};

use numbyroga_sys as sys;
use rustix::io::Errno;
use smallvec::SmallVec;

use crate::socket;

pub(crate) use sys::{
    nb_action as Action, nb_argument as RawArgument, nb_client_id as RawClientId,
    nb_event as Event, nb_global_id as RawGlobalId, nb_global_info as RawGlobalInfo,
    nb_object_id as RawObjectId, nb_object_info as RawObjectInfo, nb_request as Request,
    nb_told as Told,
};

mod client;
mod frames;
mod messages;
mod ready;
mod receiving;
mod rows;
mod server;
mod transit;
mod turns;

pub(crate) use client::{Client, SessionError};
pub(crate) use messages::{Arguments, Outgoing};
pub(crate) use ready::Ready;
pub(crate) use receiving::{Inbox, Receipt, Received};
pub(crate) use rows::{text_of, Opcode, Rows, TableFault, TableFaultKind};
pub(crate) use server::{ClientError, Note, Server};
pub(crate) use turns::Turns;

/// How many descriptors wait in a session, and are in one send, at most.
pub(crate) const MOST_DESCRIPTORS: usize = sys::NB_MOST_DESCRIPTORS;

/// Why a session did not do what it was asked for. It is as it was, then.
#[derive(Clone, Copy, Debug, PartialEq, Eq)]
pub(crate) struct Status(sys::nb_status);

macro_rules! statuses {
    ($($name:ident = $code:ident, $text:literal;)*) => {
        impl Status {
            $(#[doc = $text] pub(crate) const $name: Status = Status(sys::$code);)*

            fn text(self) -> &'static str {
                match self {
                    $(Status::$name => $text,)*
                    _ => "the library refused the call",
                }
            }
        }
    };
}

statuses! {
    WOULD_BLOCK = NB_WOULD_BLOCK, "nothing more is there now";
    INVALID_ID = NB_INVALID_ID, "the id names nothing";
    TOO_MANY_DESCRIPTORS = NB_TOO_MANY_DESCRIPTORS, "too many descriptors would wait";
    CLOSED = NB_CLOSED, "the connection has ended";
    PROTOCOL_ERROR = NB_PROTOCOL_ERROR, "the bytes are no message that the other side may send";
    TOO_BIG = NB_TOO_BIG, "the message is too long";
    IO_ERROR = NB_IO_ERROR, "the socket failed";
    FAILED = NB_FAILED, "the session has an error";
    OPEN = NB_OPEN, "an action or event is open";
    NOT_OPEN = NB_NOT_OPEN, "no action or event is open";
    WRONG_KIND = NB_WRONG_KIND, "the open action is of the other kind";
    MISSING_DATA = NB_MISSING_DATA, "the new object gets no data";
    UNEXPECTED_DATA = NB_UNEXPECTED_DATA, "there is no new object for the data";
    UNKNOWN_OPCODE = NB_UNKNOWN_OPCODE, "the interface has no message of that opcode";
    BAD_SIGNATURE = NB_BAD_SIGNATURE, "the arguments do not fit the message";
    NULL_OBJECT = NB_NULL_OBJECT, "an object argument is null";
    NULL_NEW_ID = NB_NULL_NEW_ID, "a new id is null";
    FOREIGN_OBJECT = NB_FOREIGN_OBJECT, "an argument is an object of another client";
    WRONG_INTERFACE = NB_WRONG_INTERFACE, "an argument has another interface";
    UNKNOWN_INTERFACE = NB_UNKNOWN_INTERFACE, "the interface is not in the table";
    VERSION_TOO_HIGH = NB_VERSION_TOO_HIGH, "the version is above the interface's";
    IDS_EXHAUSTED = NB_IDS_EXHAUSTED, "no number is left for an object";
    SERIALS_EXHAUSTED = NB_SERIALS_EXHAUSTED, "no serial is left";
    FULL = NB_FULL, "no slot or no name is left";
    WRONG_CHILD = NB_WRONG_CHILD, "the new object has another interface in the table";
    WRONG_CHILD_VERSION = NB_WRONG_CHILD_VERSION, "the new object's version is not its sender's";
    MISSING_CHILD = NB_MISSING_CHILD, "the interface of the new object is not named";
    NOT_PLACEHOLDER = NB_NOT_PLACEHOLDER, "the new id is not null";
    NOT_FREE = NB_NOT_FREE, "the number is not free";
}

impl std::fmt::Display for Status {
    fn fmt(&self, f: &mut std::fmt::Formatter<'_>) -> std::fmt::Result {
        f.write_str(self.text())
    }
}

/// What a call answered.
#[inline]
fn answer(status: sys::nb_status) -> Result<(), Status> {
    match status {
        sys::NB_OK => Ok(()),
        sys::NB_OUT_OF_MEMORY => no_memory(),
        other => Err(Status(other)),
    }
}

/// The answer of a call that wants nothing but memory.
fn done(status: sys::nb_status) {
    let answer = answer(status);
    debug_assert_eq!(answer, Ok(()));
}

#[cold]
fn no_memory() -> ! {
    handle_alloc_error(Layout::new::<u64>())
}

/// Stands in a message in place of a descriptor that could not be duplicated. Such a message is never sent.
const NO_DESCRIPTOR: i32 = -1;

/// Takes back a descriptor that a session hands out.
///
/// # Safety
///
/// The session has handed this number out, and nobody has taken it back.
unsafe fn take_back(number: i32) -> OwnedFd {
    assert!(
        number >= 0,
        "the library hands out descriptors that it was given"
    );
    // SAFETY: it was an OwnedFd's that was taken apart when the session took it. The session hands each number out as
    // often as it was given, and by the caller's promise it is taken back once.
    unsafe { OwnedFd::from_raw_fd(number) }
}

/// How many bytes are lent for the first send after the socket took nothing: it takes as little as that, or nothing
/// again. Each byte that is lent is copied.
const FIRST_TRY: usize = 4096;

/// What one send to a socket took.
#[derive(Clone, Copy, Debug, PartialEq, Eq)]
pub(crate) enum Sent {
    /// The session had handed nothing over.
    Nothing,
    /// All that the session had handed over.
    All,
    /// A part of it, or as much as one send can have.
    Some,
}

/// Sends once to a socket what a session has told, and closes the descriptors that were sent. `sent` tells the session
/// how many bytes were taken. Whether the socket is full is noted.
#[inline]
fn send_once(
    to: BorrowedFd<'_>,
    is_full: &mut bool,
    counts: sys::nb_counts,
    bytes: &[u8],
    numbers: &[i32],
    sent: impl FnOnce(u32),
) -> Result<Sent, Errno> {
    let room = bytes.len();
    let bytes = &bytes[..counts.bytes as usize];
    if bytes.is_empty() {
        *is_full = false;
        return Ok(Sent::Nothing);
    }
    let numbers = &numbers[..counts.descriptors as usize];
    let taken = match numbers {
        [] => socket::send(to, bytes),
        numbers => send_with(to, bytes, numbers),
    };
    let taken = match taken {
        Ok(0) => Err(Errno::AGAIN),
        answer => answer,
    };
    *is_full = taken == Err(Errno::AGAIN);
    let taken = taken?;
    sent(taken as u32);
    for &number in numbers {
        // SAFETY: by `sent` the session has handed them out, all with the first byte.
        drop(unsafe { take_back(number) });
    }
    Ok(if taken == bytes.len() && taken < room {
        Sent::All
    } else {
        Sent::Some
    })
}

/// Sends bytes and these descriptors of a session, which still owns them.
#[cold]
fn send_with(to: BorrowedFd<'_>, bytes: &[u8], numbers: &[i32]) -> Result<usize, Errno> {
    let mut descriptors = SmallVec::<[BorrowedFd<'_>; MOST_DESCRIPTORS]>::new();
    for &number in numbers {
        assert!(
            number >= 0,
            "the library sends descriptors that it was given"
        );
        // SAFETY: the session owns these descriptors, so they are open until it hands them out.
        descriptors.push(unsafe { BorrowedFd::borrow_raw(number) });
    }
    socket::send_with(to, bytes, &descriptors)
}
