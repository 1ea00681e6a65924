//! Errors and other small types of the server's side.

use std::error::Error;
use std::{fmt, io};

use rustix::process::{RawGid, RawPid, RawUid};

use crate::protocol::{Interface, ProtocolError};

/// What a global offers.
#[derive(Debug)]
pub struct GlobalInfo {
    /// Its interface.
    pub interface: &'static Interface,
    /// The greatest version that clients may bind.
    pub version: u32,
    /// Whether it is disabled: announced no more.
    pub disabled: bool,
}

/// A backend could not be made.
#[derive(Debug)]
pub enum InitError {
    /// libwayland could not be loaded. This crate loads none, so it never answers this.
    NoWaylandLib,
    /// The system refused a descriptor.
    Io(io::Error),
}

impl Error for InitError {
    fn cause(&self) -> Option<&dyn Error> {
        match self {
            InitError::Io(error) => Some(error),
            InitError::NoWaylandLib => None,
        }
    }
}

impl fmt::Display for InitError {
    fn fmt(&self, f: &mut fmt::Formatter<'_>) -> fmt::Result {
        match self {
            InitError::Io(error) => error.fmt(f),
            InitError::NoWaylandLib => f.write_str("could not load libwayland-server.so"),
        }
    }
}

/// The id names no object, client or global, or one that is gone.
#[derive(Clone, Debug, PartialEq, Eq)]
pub struct InvalidId;

impl Error for InvalidId {}

impl fmt::Display for InvalidId {
    fn fmt(&self, f: &mut fmt::Formatter<'_>) -> fmt::Result {
        f.write_str("Invalid Id")
    }
}

/// Why a client is gone.
#[derive(Debug)]
pub enum DisconnectReason {
    /// The client or the server closed the connection, or the socket failed.
    ConnectionClosed,
    /// The client was ended for this protocol error.
    ProtocolError(ProtocolError),
}

/// Who the process at the other end of a client's socket is.
#[derive(Debug, Clone, Copy)]
pub struct Credentials {
    /// Its process.
    pub pid: RawPid,
    /// Its user.
    pub uid: RawUid,
    /// Its group.
    pub gid: RawGid,
}
