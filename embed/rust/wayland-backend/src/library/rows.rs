//! Interfaces as a session's table takes them.

use numbyroga_sys as sys;

use super::no_memory;

/// Rows of a table: interfaces, their messages, and the arguments of these, each list in the order of the one before.
#[derive(Debug, Default)]
pub(crate) struct Rows {
    pub(crate) text: Vec<u8>,
    pub(crate) interfaces: Vec<sys::nb_interface_row>,
    pub(crate) messages: Vec<sys::nb_message_row>,
    pub(crate) arguments: Vec<sys::nb_argument_row>,
}

impl Rows {
    /// Puts a name into the text, and answers where it begins and how long it is.
    pub(crate) fn put_name(&mut self, name: &str) -> (u32, u32) {
        let at = self.text.len() as u32;
        self.text.extend_from_slice(name.as_bytes());
        (at, name.len() as u32)
    }
}

/// What is wrong with rows.
#[derive(Clone, Copy, Debug, PartialEq, Eq)]
pub(crate) struct TableFault {
    /// The index of the interface among those that were passed.
    pub(crate) interface: usize,
    pub(crate) kind: TableFaultKind,
}

#[derive(Clone, Copy, Debug, PartialEq, Eq)]
pub(crate) enum TableFaultKind {
    /// A message differs from the one that the table has. The table has the interface in this version.
    Contradicts { message: Opcode, version: u32 },
    /// Another fault, by its number.
    Other(u32),
}

/// A message of an interface.
#[derive(Clone, Copy, Debug, PartialEq, Eq)]
pub(crate) enum Opcode {
    Request(usize),
    Event(usize),
}

/// What a fault is that is no contradiction.
pub(crate) fn text_of(fault: u32) -> &'static str {
    match fault {
        sys::NB_FAULT_ZERO_IN_NAME => "a name has a zero byte",
        sys::NB_FAULT_DUPLICATE_NAME => "another interface has the name",
        sys::NB_FAULT_UNKNOWN_INTERFACE => {
            "an argument names an interface that is not in the table"
        }
        sys::NB_FAULT_TOO_MANY_NEW_IDS => "a message makes two objects",
        sys::NB_FAULT_MISSING_CHILD => "a message makes an object of no interface",
        sys::NB_FAULT_ARGUMENT_INTERFACES => {
            "the interfaces of a message are not those of its object arguments"
        }
        _ => "its rows make no table",
    }
}

/// The answer of a call that takes whole rows.
pub(super) fn table_answer(
    status: sys::nb_status,
    fault: sys::nb_extension_fault,
) -> Result<(), TableFault> {
    let kind = match status {
        sys::NB_OK => return Ok(()),
        sys::NB_OUT_OF_MEMORY => no_memory(),
        _ if fault.fault == sys::NB_FAULT_CONTRADICTS => {
            let opcode = fault.opcode as usize;
            TableFaultKind::Contradicts {
                message: match fault.is_event {
                    0 => Opcode::Request(opcode),
                    _ => Opcode::Event(opcode),
                },
                version: fault.version,
            }
        }
        _ => TableFaultKind::Other(fault.fault),
    };
    Err(TableFault {
        interface: fault.interface as usize,
        kind,
    })
}
