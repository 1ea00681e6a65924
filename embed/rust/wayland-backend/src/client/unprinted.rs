//! What `WAYLAND_DEBUG` prints of events that the session does not hand out: those of the display, and those of objects that the
//! client has destroyed. The session tells what it reads.

use std::fmt;
use std::os::unix::io::RawFd;

use super::{Mark, ObjectId};
use crate::debug;
use crate::library::{Client, RawObjectId, Told};
use crate::protocol::Argument;
use crate::table::Table;

const DISPLAY: u32 = 1;

/// Prints the events that the session has read since the last time. If it has handed one out, that is the last of them: it is
/// printed where it is dispatched.
pub(super) fn print_read(library: &mut Client, table: &Table, is_handed_out: bool) {
    let mut last = None;
    while let Some(event) =
        library.next_read(|told, argument| Shown::of(table, told, &argument.object))
    {
        if let Some((told, arguments)) = last.replace(event) {
            print(table, &told, &arguments);
        }
    }
    match last {
        Some((told, arguments)) if !is_handed_out => print(table, &told, &arguments),
        _ => {}
    }
}

fn print(table: &Table, told: &Told, arguments: &[Argument<Shown, RawFd>]) {
    let sender = object(table, told.number, told.interface);
    if let Some(event) = sender.interface.events.get(told.opcode as usize) {
        debug::print_dispatched(sender, event.name, debug::List(arguments));
    }
}

fn object(table: &Table, number: u32, interface: u32) -> ObjectId {
    let raw = RawObjectId {
        number,
        ..RawObjectId::default()
    };
    ObjectId::new(&raw, table.interface(interface), Mark::NONE)
}

/// An object among the arguments.
enum Shown {
    Number(u32),
    Object(ObjectId),
}

impl Shown {
    fn of(table: &Table, told: &Told, id: &RawObjectId) -> Shown {
        match (id.number, id.interface) {
            // The display names objects by their numbers alone.
            (number, _) if told.number == DISPLAY => Shown::Number(number),
            (0, _) => Shown::Object(ObjectId::null()),
            (number, 0) => Shown::Number(number),
            (number, interface) => Shown::Object(object(table, number, interface)),
        }
    }
}

impl fmt::Display for Shown {
    fn fmt(&self, f: &mut fmt::Formatter<'_>) -> fmt::Result {
        match self {
            Shown::Number(number) => number.fmt(f),
            Shown::Object(object) => object.fmt(f),
        }
    }
}
