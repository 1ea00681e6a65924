//! Ids of objects, clients and globals.

use std::{
    fmt,
    hash::{Hash, Hasher},
};

use super::Mark;
use crate::{
    library::{RawClientId, RawGlobalId, RawObjectId},
    protocol::{same_interface, Interface, ANONYMOUS_INTERFACE},
};

/// An object of a client.
///
/// The protocol uses the numbers of objects again. An `ObjectId` is of one object alone: two are equal if they are of
/// the same object, and one whose object is gone never names another.
#[derive(Clone)]
pub struct ObjectId {
    // The parts of the client's id stand by themselves, so that there are no gaps: ids are moved often.
    pub(super) number: u32,
    client_slot: u32,
    serial: u64,
    client_serial: u64,
    pub(super) interface: &'static Interface,
    /// Which server it is of.
    mark: Mark,
}

impl ObjectId {
    /// Whether this is the null object, which is no object: of each call that needs one it is refused.
    ///
    /// An id that is not null may be of an object that is gone: that can be told by a [`Handle`][super::Handle] alone.
    pub fn is_null(&self) -> bool {
        self.number == 0
    }

    /// The null object, for the arguments of events that may be null.
    #[inline]
    pub fn null() -> ObjectId {
        ObjectId {
            number: 0,
            client_slot: 0,
            serial: 0,
            client_serial: 0,
            interface: &ANONYMOUS_INTERFACE,
            mark: Mark::NONE,
        }
    }

    /// The object's interface: the one that it was made with.
    pub fn interface(&self) -> &'static Interface {
        self.interface
    }

    /// Whether both objects are of the same client.
    pub fn same_client_as(&self, other: &Self) -> bool {
        self.client() == other.client()
    }

    pub(super) fn client(&self) -> ClientId {
        ClientId {
            slot: self.client_slot,
            serial: self.client_serial,
        }
    }

    /// The object's number in the protocol. Each client has numbers of its own, and uses them again.
    pub fn protocol_id(&self) -> u32 {
        self.number
    }
}

impl PartialEq for ObjectId {
    fn eq(&self, other: &Self) -> bool {
        self.number == other.number
            && self.serial == other.serial
            && self.client() == other.client()
            && self.mark == other.mark
            && same_interface(self.interface, other.interface)
    }
}

impl Eq for ObjectId {}

impl Hash for ObjectId {
    fn hash<H: Hasher>(&self, state: &mut H) {
        self.number.hash(state);
        self.serial.hash(state);
        self.client().hash(state);
    }
}

impl fmt::Display for ObjectId {
    fn fmt(&self, f: &mut fmt::Formatter<'_>) -> fmt::Result {
        write!(
            f,
            "{}@{}[{}]",
            self.interface.name, self.number, self.client_slot
        )
    }
}

impl fmt::Debug for ObjectId {
    fn fmt(&self, f: &mut fmt::Formatter<'_>) -> fmt::Result {
        write!(f, "ObjectId({self}, {})", self.serial)
    }
}

/// A client of the server. Two ids are equal if they are of the same client.
#[derive(Clone, PartialEq, Eq, Hash)]
pub struct ClientId {
    pub(super) slot: u32,
    pub(super) serial: u64,
}

impl fmt::Debug for ClientId {
    fn fmt(&self, f: &mut fmt::Formatter<'_>) -> fmt::Result {
        write!(f, "ClientId({}, {})", self.slot, self.serial)
    }
}

/// A global of the server. Two ids are equal if they are of the same global.
#[derive(Clone, PartialEq, Eq, Hash)]
pub struct GlobalId {
    pub(super) name: u32,
    pub(super) serial: u64,
}

impl fmt::Debug for GlobalId {
    fn fmt(&self, f: &mut fmt::Formatter<'_>) -> fmt::Result {
        write!(f, "GlobalId({}, {})", self.name, self.serial)
    }
}

impl ClientId {
    pub(super) fn raw(&self) -> RawClientId {
        RawClientId {
            serial: self.serial,
            slot: self.slot,
        }
    }

    pub(super) fn of(raw: &RawClientId) -> ClientId {
        ClientId {
            slot: raw.slot,
            serial: raw.serial,
        }
    }
}

impl GlobalId {
    pub(super) fn raw(&self) -> RawGlobalId {
        RawGlobalId {
            serial: self.serial,
            name: self.name,
        }
    }

    pub(super) fn of(raw: &RawGlobalId) -> GlobalId {
        GlobalId {
            name: raw.name,
            serial: raw.serial,
        }
    }
}

impl ObjectId {
    /// The library's id. It finds the object by its client, number and serial alone.
    pub(super) fn raw(&self) -> RawObjectId {
        RawObjectId {
            serial: self.serial,
            client: self.client().raw(),
            interface: 0,
            number: self.number,
        }
    }

    pub(super) fn of(raw: &RawObjectId, interface: &'static Interface, mark: Mark) -> ObjectId {
        ObjectId {
            number: raw.number,
            client_slot: raw.client.slot,
            serial: raw.serial,
            client_serial: raw.client.serial,
            interface,
            mark,
        }
    }

    /// Which server it is of.
    #[cfg(feature = "server_system")]
    pub(crate) fn mark(&self) -> Mark {
        self.mark
    }
}
