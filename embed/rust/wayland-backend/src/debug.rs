//! What `WAYLAND_DEBUG` prints to stderr: each message, as libwayland does.

use std::fmt::{self, Display};
use std::os::unix::io::AsRawFd;
use std::time::{SystemTime, UNIX_EPOCH};

use crate::protocol::Argument;

/// Whether the environment asks for it on the client's side.
pub(crate) fn is_on_for_clients() -> bool {
    is_on("client")
}

/// Whether the environment asks for it on the server's side.
pub(crate) fn is_on_for_servers() -> bool {
    is_on("server")
}

fn is_on(side: &str) -> bool {
    std::env::var_os("WAYLAND_DEBUG").is_some_and(|value| value == "1" || value == side)
}

/// Prints a message that is handed out.
pub(crate) fn print_dispatched(object: impl Display, name: &str, arguments: impl Display) {
    eprintln!("{} <- {object}.{name}({arguments})", Stamp::now());
}

/// Prints a message that is sent.
pub(crate) fn print_sent(object: impl Display, name: &str, arguments: impl Display) {
    eprintln!("{} -> {object}.{name}({arguments})", Stamp::now());
}

/// Prints a message that is not sent, since its object is destroyed.
pub(crate) fn print_discarded(object: impl Display, name: &str, arguments: impl Display) {
    eprintln!(
        "{}[discarded] -> {object}.{name}({arguments})",
        Stamp::now()
    );
}

/// Values with commas between them.
pub(crate) struct List<'a, T>(pub(crate) &'a [T]);

impl<T: Display> Display for List<'_, T> {
    fn fmt(&self, f: &mut fmt::Formatter<'_>) -> fmt::Result {
        for (at, value) in self.0.iter().enumerate() {
            if at > 0 {
                f.write_str(", ")?;
            }
            value.fmt(f)?;
        }
        Ok(())
    }
}

/// The arguments of a request, with the id of the object that it makes in place of the null id.
pub(crate) struct WithNewId<'a, Id, Fd>(pub(crate) &'a [Argument<Id, Fd>], pub(crate) &'a Id);

impl<Id: Display, Fd: AsRawFd> Display for WithNewId<'_, Id, Fd> {
    fn fmt(&self, f: &mut fmt::Formatter<'_>) -> fmt::Result {
        for (at, argument) in self.0.iter().enumerate() {
            if at > 0 {
                f.write_str(", ")?;
            }
            match argument {
                Argument::NewId(_) => self.1.fmt(f)?,
                other => other.fmt(f)?,
            }
        }
        Ok(())
    }
}

/// The time in microseconds, as libwayland prints it: a counter of 32 bits.
struct Stamp(u32);

impl Stamp {
    fn now() -> Stamp {
        let since = SystemTime::now()
            .duration_since(UNIX_EPOCH)
            .unwrap_or_default();
        Stamp(since.as_micros() as u32)
    }
}

impl Display for Stamp {
    fn fmt(&self, f: &mut fmt::Formatter<'_>) -> fmt::Result {
        write!(f, "[{:7}.{:03}][numbyroga]", self.0 / 1000, self.0 % 1000)
    }
}
