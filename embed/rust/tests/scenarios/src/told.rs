//! What happens in a scenario, as lines.

use std::fmt::{Debug, Display};
use std::io;
use std::os::fd::OwnedFd;
use std::sync::{Arc, Mutex};

use wayland_backend::client::WaylandError;
use wayland_backend::protocol::{Argument, Message};

/// The lines of a scenario, in order.
#[derive(Clone, Default)]
pub struct Told(Arc<Mutex<Vec<String>>>);

impl Told {
    pub fn say(&self, line: impl Into<String>) {
        self.0
            .lock()
            .unwrap_or_else(|broken| broken.into_inner())
            .push(line.into());
    }

    /// The last line.
    pub fn last(&self) -> String {
        self.0.lock().unwrap().last().cloned().unwrap_or_default()
    }

    /// Takes all lines out.
    pub fn take(&self) -> Vec<String> {
        std::mem::take(&mut self.0.lock().unwrap_or_else(|broken| broken.into_inner()))
    }

    /// Keeps the lines for which `holds`.
    pub fn retain(&self, holds: impl FnMut(&String) -> bool) {
        self.0.lock().unwrap().retain(holds);
    }
}

/// A message that came, without what differs from run to run.
pub fn message<Id: Display>(message: &Message<Id, OwnedFd>) -> String {
    let arguments: Vec<_> = message
        .args
        .iter()
        .map(|argument| match argument {
            Argument::Int(number) => format!("int {number}"),
            Argument::Uint(number) => format!("uint {number}"),
            Argument::Fixed(number) => format!("fixed {number}"),
            Argument::Str(None) => "no string".into(),
            Argument::Str(Some(text)) => brief("string", text.as_bytes()),
            Argument::Object(id) => format!("object {id}"),
            Argument::NewId(id) => format!("new {id}"),
            Argument::Array(bytes) => brief("array", bytes),
            Argument::Fd(fd) => format!("file of {}", size(fd)),
        })
        .collect();
    format!(
        "{}.{}({})",
        message.sender_id,
        message.opcode,
        arguments.join(", ")
    )
}

fn brief(what: &str, bytes: &[u8]) -> String {
    match std::str::from_utf8(bytes) {
        Ok(text) if text.len() <= 20 => format!("{what} {text:?}"),
        _ => format!(
            "{what} of {} bytes, {} of them a",
            bytes.len(),
            count(bytes, b'a')
        ),
    }
}

fn count(bytes: &[u8], wanted: u8) -> usize {
    bytes.iter().filter(|&&byte| byte == wanted).count()
}

/// The size of a file, by which the scenarios know descriptors.
fn size(fd: &OwnedFd) -> i64 {
    rustix::fs::fstat(fd).unwrap().st_size
}

/// What a call of the client answered.
pub fn client<T: Debug>(answer: Result<T, WaylandError>) -> String {
    match answer {
        Ok(value) => format!("{value:?}"),
        Err(WaylandError::Io(error)) => format!("error {}", io_error(&error)),
        Err(WaylandError::Protocol(error)) => format!("error {error:?}"),
    }
}

/// What a call of the server answered.
pub fn server<T: Debug>(answer: io::Result<T>) -> String {
    match answer {
        Ok(value) => format!("{value:?}"),
        Err(error) => format!("error {}", io_error(&error)),
    }
}

fn io_error(error: &io::Error) -> String {
    format!("{:?} {:?}", error.kind(), error.raw_os_error())
}

/// Bytes as 32-bit numbers, in hexadecimal.
pub fn words(bytes: &[u8]) -> String {
    let words: Vec<_> = bytes
        .chunks(4)
        .map(|word| {
            word.iter()
                .rev()
                .map(|byte| format!("{byte:02x}"))
                .collect::<String>()
        })
        .collect();
    words.join(" ")
}
