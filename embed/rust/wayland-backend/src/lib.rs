//! The API of `wayland-backend` 0.3.17 over the proved sessions of Numbyroga.
//!
//! The crate takes the place of the one of that name by a line in `Cargo.toml`, and wayland-client, wayland-server and
//! what stands on them go on as before:
//!
//! ```toml
//! [patch.crates-io]
//! wayland-backend = { path = "numbyroga/embed/rust/wayland-backend" }
//! ```
//!
//! Sockets, locks and callbacks are here. What is read and what is sent, which objects there are, and what is an error,
//! is decided by the sessions of `libnumbyroga`, and which of several threads reads, by its `nb_readers`. README lists what
//! differs from the original.
//!
//! Errors are printed to stderr, or by the crate `log` with the feature `log`. If the environment has
//! `WAYLAND_DEBUG=1`, or `client` or `server` in place of the 1, each message is printed to stderr.

#![deny(unsafe_code)]
#![deny(unsafe_op_in_unsafe_fn)]
#![warn(missing_docs, missing_debug_implementations)]
// `impl_downcast` writes such bounds.
#![allow(clippy::multiple_bound_locations)]

#[cfg(feature = "log")]
#[allow(unused_imports)]
use log::{debug as log_debug, error as log_error};
#[cfg(not(feature = "log"))]
use std::eprintln as log_error;

/// Prints nothing: what happens is logged by the crate `log` alone.
#[cfg(not(feature = "log"))]
macro_rules! log_debug {
    ($($text:tt)*) => {};
}
#[cfg(not(feature = "log"))]
use log_debug;

/// The crate `smallvec`, whose vectors have a message's arguments.
pub extern crate smallvec;

/// Makes a [`Message`][crate::protocol::Message] of a sender, an opcode and arguments.
///
/// ```
/// use wayland_backend::message;
/// use wayland_backend::protocol::{Argument, Message};
///
/// let message: Message<u32, i32> = message!(1, 0, [Argument::Int(5), Argument::NewId(3)]);
/// assert_eq!(message.args.len(), 2);
/// ```
#[macro_export]
macro_rules! message {
    ($sender_id: expr, $opcode: expr, [$($args: expr),* $(,)?] $(,)?) => {
        $crate::protocol::Message {
            sender_id: $sender_id,
            opcode: $opcode,
            args: $crate::smallvec::smallvec![$($args),*],
        }
    };
}

mod core_interfaces;
mod data;
mod debug;
#[allow(unsafe_code)]
mod library;
#[cfg(not(all(feature = "client_system", feature = "server_system")))]
mod mark;
mod panics;
mod socket;
mod table;
mod types;

pub mod client;
pub mod protocol;
pub mod server;

// The functions that are unsafe in the original are declared so. None of them does what is unsafe.
#[cfg(any(feature = "client_system", feature = "server_system"))]
#[allow(unsafe_code)]
pub mod sys;

/// The two sides under the names that they have beside libwayland's in the original.
pub mod rs {
    pub use crate::client;
    pub use crate::server;
}
