//! Interfaces as statics, and as rows of a session's table.
//!
//! An interface gets its row when a call first names it, and all that it names get theirs with it. A name has one row. If a
//! program has several statics of one name, as of two versions of a protocol, the row has the messages of the longest, and
//! each object keeps the static that it was made with. A static that contradicts the row is refused when it is first named.

use std::collections::{HashMap, HashSet};
use std::fmt;
use std::hash::{BuildHasherDefault, Hasher};

use numbyroga_sys as sys;

use crate::core_interfaces::{WL_CALLBACK_INTERFACE, WL_DISPLAY_INTERFACE, WL_REGISTRY_INTERFACE};
use crate::library::{text_of, Opcode, Rows, TableFault, TableFaultKind};
use crate::protocol::{AllowNull, ArgumentType, Interface, MessageDesc, ANONYMOUS_INTERFACE};

/// Which row stands for which static.
#[derive(Debug)]
pub(crate) struct Table {
    /// Whether two statics of one name differ in which events end their objects.
    ends_differ: bool,
    /// The static of each row: the first one of its name.
    statics: Vec<&'static Interface>,
    rows_by_name: HashMap<&'static str, u32>,
    /// The rows of those that the session's table has.
    rows_by_address: HashMap<usize, u32, BuildHasherDefault<AddressHasher>>,
}

/// An interface that the session's table does not take.
#[derive(Debug)]
pub(crate) struct BadInterface {
    interface: &'static Interface,
    kind: TableFaultKind,
}

impl fmt::Display for BadInterface {
    fn fmt(&self, f: &mut fmt::Formatter<'_>) -> fmt::Result {
        let Interface { name, version, .. } = self.interface;
        match self.kind {
            TableFaultKind::Contradicts {
                message,
                version: first,
            } => write!(
                f,
                "The interface {name} of version {version} cannot be used beside that of version {first}: they differ in the {}.",
                MessageName(self.interface, message)
            ),
            TableFaultKind::Other(fault) => {
                write!(f, "The interface {name} cannot be used: {}.", text_of(fault))
            }
        }
    }
}

/// A message as a text names it.
struct MessageName(&'static Interface, Opcode);

impl fmt::Display for MessageName {
    fn fmt(&self, f: &mut fmt::Formatter<'_>) -> fmt::Result {
        let (kind, messages, opcode) = match self.1 {
            Opcode::Request(opcode) => ("request", self.0.requests, opcode),
            Opcode::Event(opcode) => ("event", self.0.events, opcode),
        };
        write!(
            f,
            "{kind} {}",
            messages.get(opcode).map_or("?", |message| message.name)
        )
    }
}

impl Table {
    /// The table of a new session.
    pub(crate) fn new() -> Table {
        let mut table = Table {
            ends_differ: false,
            statics: Vec::new(),
            rows_by_name: HashMap::new(),
            rows_by_address: HashMap::default(),
        };
        // In the order of their numbers, from NB_INTERFACE_ANY on.
        let fixed = [
            &ANONYMOUS_INTERFACE,
            &WL_DISPLAY_INTERFACE,
            &WL_REGISTRY_INTERFACE,
            &WL_CALLBACK_INTERFACE,
        ];
        for interface in fixed {
            table.push(interface);
        }
        debug_assert_eq!(table.statics.len(), sys::NB_INTERFACE_FIRST as usize);
        table
    }

    /// The first static of a row.
    #[inline]
    pub(crate) fn interface(&self, row: u32) -> &'static Interface {
        self.statics[row as usize]
    }

    /// The row of an interface. If the session's table does not have it yet, it gets it, and all that it names; `extend` hands
    /// these to the session.
    #[inline]
    pub(crate) fn row(
        &mut self,
        interface: &'static Interface,
        extend: impl FnMut(&Rows) -> Result<(), TableFault>,
    ) -> Result<u32, BadInterface> {
        match self.rows_by_address.get(&address(interface)) {
            Some(row) => Ok(*row),
            None => self.learn(interface, extend),
        }
    }

    /// Whether the event may end an object of this interface.
    #[inline]
    pub(crate) fn may_end(&self, interface: &'static Interface, event: u16) -> bool {
        let event = interface.events.get(usize::from(event));
        self.ends_differ || event.is_some_and(|event| event.is_destructor)
    }

    #[cold]
    fn learn(
        &mut self,
        interface: &'static Interface,
        mut extend: impl FnMut(&Rows) -> Result<(), TableFault>,
    ) -> Result<u32, BadInterface> {
        let mut unknown = self.unknown_from(interface);
        while !unknown.is_empty() {
            unknown = self.learn_some(unknown, &mut extend)?;
        }
        Ok(self.rows_by_address[&address(interface)])
    }

    /// The interface and all that it names, as far as the session's table does not have them yet.
    fn unknown_from(&self, interface: &'static Interface) -> Vec<&'static Interface> {
        let mut unknown = Vec::new();
        let mut seen = HashSet::new();
        let mut named = vec![interface];
        while let Some(interface) = named.pop() {
            let address = address(interface);
            if self.rows_by_address.contains_key(&address) || !seen.insert(address) {
                continue;
            }
            unknown.push(interface);
            for message in interface.requests.iter().chain(interface.events) {
                named.extend(message.child_interface);
                named.extend(message.arg_interfaces);
            }
        }
        unknown
    }

    /// Hands statics to the session, one of each name, and answers those that are left.
    fn learn_some(
        &mut self,
        statics: Vec<&'static Interface>,
        extend: &mut impl FnMut(&Rows) -> Result<(), TableFault>,
    ) -> Result<Vec<&'static Interface>, BadInterface> {
        let before = self.statics.len();
        let (mut others, mut left) = (Vec::new(), Vec::new());
        let mut names = HashSet::new();
        for interface in statics {
            if !names.insert(interface.name) {
                left.push(interface);
            } else if self.rows_by_name.contains_key(interface.name) {
                others.push(interface);
            } else {
                self.push(interface);
            }
        }
        let news = self.statics.len() - before;
        let said = [&self.statics[before..], &others].concat();
        if let Err(fault) = extend(&self.rows_of(&said)) {
            let is_contradiction = matches!(fault.kind, TableFaultKind::Contradicts { .. });
            // What is wrong with the rest of a longer static shows when the new ones have been added.
            if is_contradiction || fault.interface < news {
                self.forget_from(before);
            }
            return Err(BadInterface {
                interface: said.get(fault.interface).unwrap_or(&said[0]),
                kind: fault.kind,
            });
        }
        for other in others {
            let row = self.rows_by_name[other.name];
            self.ends_differ |= !same_ends(other, self.interface(row));
            self.rows_by_address.insert(address(other), row);
        }
        Ok(left)
    }

    fn push(&mut self, interface: &'static Interface) {
        let row = self.statics.len() as u32;
        self.statics.push(interface);
        self.rows_by_name.insert(interface.name, row);
        self.rows_by_address.insert(address(interface), row);
    }

    /// Takes the rows back that the session refused.
    fn forget_from(&mut self, first: usize) {
        self.statics.truncate(first);
        self.rows_by_name.retain(|_, row| (*row as usize) < first);
        self.rows_by_address
            .retain(|_, row| (*row as usize) < first);
    }

    /// The rows of these statics, as the library takes them.
    fn rows_of(&self, statics: &[&'static Interface]) -> Rows {
        let mut rows = Rows::default();
        for interface in statics {
            let whole = self.whole(interface);
            let (name_at, name_length) = rows.put_name(whole.name);
            rows.interfaces.push(sys::nb_interface_row {
                name_at,
                name_length,
                version: whole.version,
                requests: whole.requests.len() as u32,
                events: whole.events.len() as u32,
            });
            for message in whole.requests.iter().chain(whole.events) {
                self.put_message(&mut rows, message);
            }
        }
        rows
    }

    /// What the session is told of a static. The fixed interfaces take no more than they have.
    fn whole(&self, interface: &'static Interface) -> Interface {
        let row = self.rows_by_name[interface.name];
        let mut whole = Interface { ..*interface };
        if row < sys::NB_INTERFACE_FIRST {
            let fixed = self.interface(row);
            whole.version = whole.version.min(fixed.version);
            whole.requests = &whole.requests[..whole.requests.len().min(fixed.requests.len())];
            whole.events = &whole.events[..whole.events.len().min(fixed.events.len())];
        }
        whole
    }

    fn put_message(&self, rows: &mut Rows, message: &MessageDesc) {
        let (name_at, name_length) = rows.put_name(message.name);
        rows.messages.push(sys::nb_message_row {
            name_at,
            name_length,
            since: message.since,
            is_destructor: message.is_destructor.into(),
            arguments: message.signature.len() as u32,
        });
        let mut objects = message.arg_interfaces.iter();
        for argument in message.signature {
            let (kind, allow_null) = kind_of(*argument);
            let interface = match argument {
                ArgumentType::Object(_) => objects.next().copied(),
                ArgumentType::NewId => message.child_interface,
                _ => None,
            };
            rows.arguments.push(sys::nb_argument_row {
                kind,
                is_nullable: (allow_null == AllowNull::Yes).into(),
                interface: interface
                    .map_or(sys::NB_INTERFACE_ANY, |named| self.rows_by_name[named.name]),
            });
        }
    }
}

/// Whether the events that both have end an object of either, or of none.
fn same_ends(one: &Interface, other: &Interface) -> bool {
    let mut both = one.events.iter().zip(other.events);
    both.all(|(one, other)| one.is_destructor == other.is_destructor)
}

fn kind_of(argument: ArgumentType) -> (u32, AllowNull) {
    match argument {
        ArgumentType::Int => (sys::NB_INT, AllowNull::No),
        ArgumentType::Uint => (sys::NB_UINT, AllowNull::No),
        ArgumentType::Fixed => (sys::NB_FIXED, AllowNull::No),
        ArgumentType::Str(allow_null) => (sys::NB_STRING, allow_null),
        ArgumentType::Object(allow_null) => (sys::NB_OBJECT, allow_null),
        ArgumentType::NewId => (sys::NB_NEW_ID, AllowNull::No),
        ArgumentType::Array => (sys::NB_ARRAY, AllowNull::No),
        ArgumentType::Fd => (sys::NB_DESCRIPTOR, AllowNull::No),
    }
}

fn address(interface: &'static Interface) -> usize {
    std::ptr::from_ref(interface) as usize
}

/// Addresses are looked up for each request that makes an object, and nobody else chooses them: one product is enough.
#[derive(Debug, Default)]
struct AddressHasher(u64);

impl Hasher for AddressHasher {
    fn write(&mut self, _: &[u8]) {
        unreachable!("only addresses are hashed");
    }

    fn write_usize(&mut self, address: usize) {
        self.0 = (address as u64)
            .wrapping_mul(0x9e37_79b9_7f4a_7c15)
            .rotate_left(32);
    }

    fn finish(&self) -> u64 {
        self.0
    }
}

#[cfg(test)]
mod tests {
    use super::*;
    use crate::library::Client;

    /// A message of these interfaces: an object that it makes, and an object argument.
    const fn message(
        name: &'static str,
        child: Option<&'static Interface>,
        arguments: &'static [&'static Interface],
        signature: &'static [ArgumentType],
    ) -> MessageDesc {
        MessageDesc {
            name,
            signature,
            since: 1,
            is_destructor: false,
            child_interface: child,
            arg_interfaces: arguments,
        }
    }

    const fn interface(name: &'static str, requests: &'static [MessageDesc]) -> Interface {
        Interface {
            name,
            version: 3,
            requests,
            events: &[],
            c_ptr: None,
        }
    }

    // Two interfaces that name each other.
    static SURFACE: Interface = interface(
        "surface",
        &[message(
            "make_role",
            Some(&ROLE),
            &[],
            &[ArgumentType::NewId],
        )],
    );
    static ROLE: Interface = interface(
        "role",
        &[
            message(
                "set_parent",
                None,
                &[&SURFACE],
                &[ArgumentType::Int, ArgumentType::Object(AllowNull::Yes)],
            ),
            message(
                "ask",
                Some(&WL_CALLBACK_INTERFACE),
                &[],
                &[ArgumentType::NewId],
            ),
        ],
    );
    static OTHER_SURFACE: Interface = interface("surface", &[]);
    static WITHOUT_CHILD: Interface =
        interface("bad", &[message("make", None, &[], &[ArgumentType::NewId])]);
    static NAMES_BAD: Interface = interface(
        "names_bad",
        &[message(
            "make",
            Some(&WITHOUT_CHILD),
            &[],
            &[ArgumentType::NewId],
        )],
    );

    #[test]
    fn an_interface_brings_what_it_names() {
        let mut table = Table::new();
        let mut appended = None;
        let row = table
            .row(&SURFACE, |rows| {
                appended = Some(rows.interfaces.len());
                Ok(())
            })
            .unwrap();
        assert_eq!((row, appended), (4, Some(2)));
        assert_eq!(table.row(&ROLE, |_| panic!("it has a row")).unwrap(), 5);
        assert!(std::ptr::eq(table.interface(5), &ROLE));
    }

    #[test]
    fn rows_say_what_the_statics_say() {
        let argument = |kind, is_nullable, interface| sys::nb_argument_row {
            kind,
            is_nullable,
            interface,
        };
        let message = |name_at, name_length, arguments| sys::nb_message_row {
            name_at,
            name_length,
            since: 1,
            is_destructor: 0,
            arguments,
        };
        let interface = |name_at, name_length, requests| sys::nb_interface_row {
            name_at,
            name_length,
            version: 3,
            requests,
            events: 0,
        };
        let mut table = Table::new();
        let row = table.row(&SURFACE, |rows| {
            assert_eq!(rows.text, b"surfacemake_roleroleset_parentask");
            assert_eq!(rows.interfaces, [interface(0, 7, 1), interface(16, 4, 2)]);
            assert_eq!(
                rows.messages,
                [message(7, 9, 1), message(20, 10, 2), message(30, 3, 1)]
            );
            assert_eq!(
                rows.arguments,
                [
                    argument(sys::NB_NEW_ID, 0, 5),
                    argument(sys::NB_INT, 0, 0),
                    argument(sys::NB_OBJECT, 1, 4),
                    argument(sys::NB_NEW_ID, 0, sys::NB_INTERFACE_CALLBACK),
                ]
            );
            Ok(())
        });
        assert_eq!(row.unwrap(), 4);
    }

    #[test]
    fn a_second_static_of_a_name_shares_its_row() {
        let mut table = Table::new();
        let row = table.row(&SURFACE, |_| Ok(())).unwrap();
        let mut extended = None;
        let second = table.row(&OTHER_SURFACE, |rows| {
            extended = Some(rows.interfaces.len());
            Ok(())
        });
        assert_eq!((second.unwrap(), extended), (row, Some(1)));
        assert_eq!(
            table
                .row(&OTHER_SURFACE, |_| panic!("it has a row"))
                .unwrap(),
            row
        );
        assert!(std::ptr::eq(table.interface(row), &SURFACE));
    }

    /// An interface `pad` of this version, with the first so many of its requests and events.
    const fn pad(version: u32, messages: usize) -> Interface {
        const MESSAGES: &[MessageDesc] = &[
            message("one", None, &[], &[ArgumentType::Int]),
            message("two", None, &[], &[ArgumentType::Str(AllowNull::No)]),
            message("three", None, &[], &[]),
        ];
        let (messages, _) = MESSAGES.split_at(messages);
        Interface {
            name: "pad",
            version,
            requests: messages,
            events: messages,
            c_ptr: None,
        }
    }

    static SHORT_PAD: Interface = pad(1, 1);
    static PAD: Interface = pad(2, 2);
    static LONG_PAD: Interface = pad(3, 3);
    static OTHER_PAD: Interface = Interface {
        version: 7,
        events: &[message("one", None, &[], &[ArgumentType::Uint])],
        ..pad(2, 2)
    };

    #[test]
    fn statics_of_one_name_extend_their_row_in_any_order() {
        let pads = [&SHORT_PAD, &PAD, &LONG_PAD];
        for order in [
            [0, 1, 2],
            [0, 2, 1],
            [1, 0, 2],
            [1, 2, 0],
            [2, 0, 1],
            [2, 1, 0],
        ] {
            let (mut table, mut session) = (Table::new(), Client::new());
            for at in order {
                let row = table.row(pads[at], |rows| session.extend_interfaces(rows));
                assert_eq!(row.unwrap(), 4);
            }
        }
    }

    #[test]
    fn a_static_that_contradicts_the_row_is_refused() {
        for first in [&SHORT_PAD, &PAD, &LONG_PAD] {
            let (mut table, mut session) = (Table::new(), Client::new());
            table
                .row(first, |rows| session.extend_interfaces(rows))
                .unwrap();
            for _ in 0..2 {
                let error = table
                    .row(&OTHER_PAD, |rows| session.extend_interfaces(rows))
                    .unwrap_err();
                assert_eq!(
                    error.to_string(),
                    format!(
                        "The interface pad of version 7 cannot be used beside that of version {}: they differ in the event one.",
                        first.version
                    )
                );
            }
            assert_eq!(
                table
                    .row(&SURFACE, |rows| session.extend_interfaces(rows))
                    .unwrap(),
                5
            );
        }
    }

    #[test]
    fn statics_of_one_name_may_come_in_one_call() {
        static BOTH: Interface = interface(
            "both",
            &[
                message("first", Some(&PAD), &[], &[ArgumentType::NewId]),
                message("second", Some(&LONG_PAD), &[], &[ArgumentType::NewId]),
                message("third", Some(&SHORT_PAD), &[], &[ArgumentType::NewId]),
            ],
        );
        let (mut table, mut session) = (Table::new(), Client::new());
        let mut row = |interface| {
            table
                .row(interface, |rows| session.extend_interfaces(rows))
                .unwrap()
        };
        assert_eq!(
            [&BOTH, &PAD, &LONG_PAD, &SHORT_PAD].map(&mut row),
            [4, 5, 5, 5]
        );
    }

    #[test]
    fn what_came_before_a_bad_rest_is_kept() {
        static BAD_PAD: Interface = Interface {
            requests: &[
                message("one", None, &[], &[ArgumentType::Int]),
                message(
                    "make",
                    None,
                    &[&ROLE],
                    &[ArgumentType::Object(AllowNull::No), ArgumentType::NewId],
                ),
            ],
            ..pad(2, 1)
        };
        let (mut table, mut session) = (Table::new(), Client::new());
        let mut row = |interface| table.row(interface, |rows| session.extend_interfaces(rows));
        assert_eq!(row(&SHORT_PAD).unwrap(), 4);
        assert_eq!(
            row(&BAD_PAD).unwrap_err().to_string(),
            "The interface pad cannot be used: a message makes an object of no interface."
        );
        assert_eq!((row(&SURFACE).unwrap(), row(&ROLE).unwrap()), (6, 5));
        assert_eq!(row(&LONG_PAD).unwrap(), 4);
    }

    #[test]
    fn an_event_may_end_an_object_if_any_static_of_the_name_says_so() {
        const DONE: MessageDesc = message("done", None, &[], &[]);
        const fn with_events(events: &'static [MessageDesc]) -> Interface {
            Interface {
                events,
                ..interface("timer", &[])
            }
        }
        static LASTING: Interface = with_events(&[DONE, DONE]);
        static SAME: Interface = with_events(&[DONE]);
        static ENDING: Interface = with_events(&[MessageDesc {
            is_destructor: true,
            ..DONE
        }]);
        let mut table = Table::new();
        table.row(&LASTING, |_| Ok(())).unwrap();
        table.row(&SAME, |_| Ok(())).unwrap();
        assert!(!table.may_end(&LASTING, 0));
        assert!(table.may_end(&ENDING, 0) && !table.may_end(&ENDING, 1));
        table.row(&ENDING, |_| Ok(())).unwrap();
        assert!(table.may_end(&LASTING, 0));
    }

    #[test]
    fn the_fixed_interfaces_have_their_rows() {
        let mut table = Table::new();
        for (row, interface) in [
            &ANONYMOUS_INTERFACE,
            &WL_DISPLAY_INTERFACE,
            &WL_REGISTRY_INTERFACE,
            &WL_CALLBACK_INTERFACE,
        ]
        .into_iter()
        .enumerate()
        {
            assert_eq!(
                table.row(interface, |_| panic!("it has a row")).unwrap(),
                row as u32
            );
        }
    }

    #[test]
    fn a_session_takes_the_rows() {
        let (mut table, mut session) = (Table::new(), Client::new());
        assert_eq!(
            table
                .row(&SURFACE, |rows| session.extend_interfaces(rows))
                .unwrap(),
            4
        );
    }

    #[test]
    fn what_a_session_refuses_is_forgotten() {
        let (mut table, mut session) = (Table::new(), Client::new());
        let error = table
            .row(&NAMES_BAD, |rows| session.extend_interfaces(rows))
            .unwrap_err();
        assert_eq!(
            error.to_string(),
            "The interface bad cannot be used: a message makes an object of no interface."
        );
        assert_eq!(
            table
                .row(&SURFACE, |rows| session.extend_interfaces(rows))
                .unwrap(),
            4
        );
    }
}
