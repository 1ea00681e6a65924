//! Errors and other small types of the client's side.

use std::error::Error;
use std::{fmt, io};

use crate::protocol::ProtocolError;

/// libwayland could not be loaded. This crate loads none, so it never answers this.
#[derive(Debug)]
pub struct NoWaylandLib;

impl Error for NoWaylandLib {}

impl fmt::Display for NoWaylandLib {
    fn fmt(&self, f: &mut fmt::Formatter<'_>) -> fmt::Result {
        f.write_str("could not load libwayland-client.so")
    }
}

/// The error of a connection.
#[derive(Debug)]
pub enum WaylandError {
    /// The socket failed, or the connection ended.
    Io(io::Error),
    /// The server sent an error, or broke the protocol.
    Protocol(ProtocolError),
}

impl Error for WaylandError {
    fn cause(&self) -> Option<&dyn Error> {
        match self {
            WaylandError::Io(error) => Some(error),
            WaylandError::Protocol(error) => Some(error),
        }
    }
}

impl fmt::Display for WaylandError {
    fn fmt(&self, f: &mut fmt::Formatter<'_>) -> fmt::Result {
        match self {
            WaylandError::Io(error) => write!(f, "Io error: {error}"),
            WaylandError::Protocol(error) => error.fmt(f),
        }
    }
}

impl Clone for WaylandError {
    /// Of an input or output error the number is copied, or the kind if it has no number.
    fn clone(&self) -> Self {
        match self {
            WaylandError::Protocol(error) => WaylandError::Protocol(error.clone()),
            WaylandError::Io(error) => WaylandError::Io(match error.raw_os_error() {
                Some(number) => io::Error::from_raw_os_error(number),
                None => io::Error::new(error.kind(), ""),
            }),
        }
    }
}

impl From<ProtocolError> for WaylandError {
    fn from(error: ProtocolError) -> Self {
        WaylandError::Protocol(error)
    }
}

impl From<io::Error> for WaylandError {
    fn from(error: io::Error) -> Self {
        WaylandError::Io(error)
    }
}

/// The id names no object, or one that is destroyed.
#[derive(Clone, Debug, PartialEq, Eq)]
pub struct InvalidId;

impl Error for InvalidId {}

impl fmt::Display for InvalidId {
    fn fmt(&self, f: &mut fmt::Formatter<'_>) -> fmt::Result {
        f.write_str("Invalid ObjectId")
    }
}
