//! What a process has, and what it waits for.

use std::io::Write;
use std::os::fd::{AsFd, OwnedFd};

use rustix::event::{poll, PollFd, PollFlags};
use rustix::fs::{memfd_create, MemfdFlags};

/// How many descriptors the process has open.
pub fn descriptors() -> usize {
    std::fs::read_dir("/proc/self/fd").unwrap().count() - 1
}

/// The memory that the process has, in kilobytes.
pub fn memory() -> usize {
    let text = std::fs::read_to_string("/proc/self/status").unwrap();
    let line = text.lines().find_map(|it| it.strip_prefix("VmRSS:")).unwrap();
    line.trim().trim_end_matches(" kB").parse().unwrap()
}

/// Waits until one of these can be read, but not for ever.
pub fn wait_for(all: &[&dyn AsFd], milliseconds: i32) {
    let borrowed: Vec<_> = all.iter().map(|it| it.as_fd()).collect();
    let mut ready: Vec<_> = borrowed.iter().map(|it| PollFd::new(it, PollFlags::IN)).collect();
    let _ = poll(&mut ready, milliseconds);
}

/// A file in memory with this text.
pub fn file(text: &str) -> OwnedFd {
    let mut file = std::fs::File::from(memfd_create("text", MemfdFlags::CLOEXEC).unwrap());
    file.write_all(text.as_bytes()).unwrap();
    file.into()
}

/// The text of a file in memory, wherever its end was.
pub fn text_of(file: &OwnedFd) -> String {
    let mut bytes = [0; 256];
    let count = rustix::io::pread(file, &mut bytes, 0).unwrap_or(0);
    String::from_utf8_lossy(&bytes[..count]).into_owned()
}
