//! Messages as they cross: flat arguments beside one run of bytes.

use std::ffi::CString;
use std::os::fd::{AsRawFd, BorrowedFd, IntoRawFd, OwnedFd, RawFd};

use numbyroga_sys as sys;
use rustix::io::Errno;
use smallvec::SmallVec;

use super::{take_back, RawArgument, RawObjectId, MOST_DESCRIPTORS, NO_DESCRIPTOR};
use crate::protocol::{Argument, INLINE_ARGS};

/// The arguments of a message that came.
pub(crate) type Arguments<Id> = SmallVec<[Argument<Id, OwnedFd>; INLINE_ARGS]>;

/// More bytes than a message can have. What is longer is cut to so many, since it is refused for its length anyway.
const TOO_MANY_BYTES: usize = 1 << 17;

/// A message to a session. Its memory is kept from one message to the next.
#[derive(Debug, Default)]
pub(crate) struct Outgoing {
    pub(super) arguments: Vec<RawArgument>,
    pub(super) bytes: Vec<u8>,
    descriptors: Vec<OwnedFd>,
}

impl Outgoing {
    /// Takes these arguments in place of those that were there. `id` says which object of the library an id names.
    ///
    /// Descriptors are duplicated: the caller's stay its own. An error is that of the first one that could not be. The
    /// message can be handed to a session all the same, if that sends nothing any more.
    #[inline]
    pub(crate) fn set<Id>(
        &mut self,
        arguments: &[Argument<Id, RawFd>],
        id: impl Fn(&Id) -> RawObjectId,
    ) -> Result<(), Errno> {
        self.clear();
        let mut answer = Ok(());
        let Outgoing {
            arguments: flats,
            bytes,
            descriptors,
        } = self;
        for argument in arguments {
            flats.push(match argument {
                Argument::Int(value) => number(sys::NB_INT, *value),
                Argument::Uint(value) => number(sys::NB_UINT, *value as i32),
                Argument::Fixed(value) => number(sys::NB_FIXED, *value),
                Argument::Object(object) => named(sys::NB_OBJECT, id(object)),
                Argument::NewId(object) => named(sys::NB_NEW_ID, id(object)),
                Argument::Str(None) => number(sys::NB_NULL_STRING, 0),
                Argument::Str(Some(text)) => range(sys::NB_STRING, put(text.as_bytes(), bytes)),
                Argument::Array(array) => range(sys::NB_ARRAY, put(array, bytes)),
                Argument::Fd(descriptor) => keep_copy(*descriptor, descriptors, &mut answer),
            });
        }
        answer
    }

    /// Takes so many numbers as arguments.
    pub(crate) fn set_numbers(&mut self, count: usize) {
        self.clear();
        self.arguments.resize(count, number(sys::NB_INT, 0));
    }

    /// How many bytes the message has, at most.
    pub(crate) fn size(&self) -> usize {
        const HEADER: usize = 8;
        // A length, and bytes that fill the last word up.
        const MOST_BESIDE: usize = 8;
        HEADER + MOST_BESIDE * self.arguments.len() + self.bytes.len()
    }

    /// Forgets the message, and closes its descriptors.
    #[inline]
    pub(crate) fn clear(&mut self) {
        self.arguments.clear();
        self.bytes.clear();
        self.descriptors.clear();
    }

    /// The session has taken the descriptors. The answer is how many these are.
    #[inline]
    pub(super) fn give_up_descriptors(&mut self) -> usize {
        let count = self.descriptors.len();
        while let Some(descriptor) = self.descriptors.pop() {
            let _ = descriptor.into_raw_fd();
        }
        count
    }
}

fn number(kind: u32, value: i32) -> RawArgument {
    RawArgument {
        kind,
        value,
        ..Default::default()
    }
}

fn named(kind: u32, object: RawObjectId) -> RawArgument {
    RawArgument {
        kind,
        object,
        ..Default::default()
    }
}

fn range(kind: u32, (at, length): (u32, u32)) -> RawArgument {
    RawArgument {
        kind,
        at,
        length,
        ..Default::default()
    }
}

/// Puts a string or an array behind the other bytes, and answers where it begins and how long it is.
fn put(range: &[u8], bytes: &mut Vec<u8>) -> (u32, u32) {
    let range = &range[..range.len().min(TOO_MANY_BYTES)];
    let at = bytes.len() as u32;
    bytes.extend_from_slice(range);
    (at, range.len() as u32)
}

/// Keeps a copy of a caller's descriptor. The first error is put into `answer`.
#[inline(never)]
fn keep_copy(
    descriptor: RawFd,
    copies: &mut Vec<OwnedFd>,
    answer: &mut Result<(), Errno>,
) -> RawArgument {
    match duplicate(descriptor) {
        Ok(copy) => {
            let flat = number(sys::NB_DESCRIPTOR, copy.as_raw_fd());
            copies.push(copy);
            flat
        }
        Err(error) => {
            *answer = answer.and(Err(error));
            number(sys::NB_DESCRIPTOR, NO_DESCRIPTOR)
        }
    }
}

/// A copy of a caller's descriptor.
fn duplicate(descriptor: RawFd) -> Result<OwnedFd, Errno> {
    if descriptor < 0 {
        return Err(Errno::BADF);
    }
    // SAFETY: it is not -1. If the caller passes a number that is no open descriptor, the duplication fails, and nothing
    // else is done with it.
    let borrowed = unsafe { BorrowedFd::borrow_raw(descriptor) };
    rustix::io::fcntl_dupfd_cloexec(borrowed, 3)
}

/// Memory that a session writes messages into, kept from one to the next. It grows as the session says.
#[derive(Debug)]
pub(super) struct Lent {
    pub(super) arguments: Vec<RawArgument>,
    pub(super) bytes: Vec<u8>,
    /// The descriptors of one send.
    pub(super) descriptors: [i32; MOST_DESCRIPTORS],
}

impl Lent {
    /// As many bytes are kept. Few messages have more.
    const MOST_KEPT: usize = 512;

    pub(super) fn new() -> Lent {
        Lent {
            arguments: Vec::new(),
            bytes: Vec::new(),
            descriptors: [NO_DESCRIPTOR; MOST_DESCRIPTORS],
        }
    }

    /// Makes room for as much as the session says it needs.
    #[cold]
    pub(super) fn grow(&mut self, arguments: u32, bytes: u32) {
        let arguments = self.arguments.len().max(arguments as usize);
        self.arguments.resize(arguments, RawArgument::default());
        if bytes as usize > self.bytes.len() {
            self.bytes.resize(bytes.next_power_of_two() as usize, 0);
        }
    }

    /// Gives back what a long message has needed.
    #[inline]
    pub(super) fn shrink(&mut self) {
        if self.bytes.len() > Lent::MOST_KEPT {
            self.bytes = Vec::new();
        }
    }

    /// Two texts that were written here, behind each other.
    pub(super) fn texts(&self, first: u32, second: u32) -> (String, String) {
        let (first, second) = (first as usize, second as usize);
        let text = |bytes: &[u8]| String::from_utf8_lossy(bytes).into_owned();
        (
            text(&self.bytes[..first]),
            text(&self.bytes[first..first + second]),
        )
    }

    /// An argument of a message that was written here.
    #[inline]
    fn argument<Id, Fd>(
        &self,
        flat: &RawArgument,
        id: impl FnOnce(&RawArgument) -> Id,
        descriptor: impl FnOnce(i32) -> Fd,
    ) -> Argument<Id, Fd> {
        let range = || &self.bytes[flat.at as usize..][..flat.length as usize];
        match flat.kind {
            sys::NB_INT => Argument::Int(flat.value),
            sys::NB_UINT => Argument::Uint(flat.value as u32),
            sys::NB_FIXED => Argument::Fixed(flat.value),
            sys::NB_STRING => Argument::Str(Some(Box::new(text(range())))),
            sys::NB_NULL_STRING => Argument::Str(None),
            sys::NB_OBJECT => Argument::Object(id(flat)),
            sys::NB_NEW_ID => Argument::NewId(id(flat)),
            sys::NB_ARRAY => Argument::Array(Box::new(range().to_vec())),
            _ => Argument::Fd(descriptor(flat.value)),
        }
    }

    /// The arguments of a message that is told. Its descriptors are numbers, which may be closed already.
    pub(super) fn told<Id>(
        &self,
        count: u32,
        mut id: impl FnMut(&RawArgument) -> Id,
    ) -> Vec<Argument<Id, RawFd>> {
        let flats = &self.arguments[..count as usize];
        let argument = |flat| self.argument(flat, &mut id, |number| number);
        flats.iter().map(argument).collect()
    }

    /// Appends the arguments of a message that was written here. `id` answers the id for an object and its data, 0 if it has
    /// none. The answer is how many descriptors are among them.
    ///
    /// # Safety
    ///
    /// A session has handed the message out by the last call, and nobody has taken its descriptors yet.
    #[inline]
    pub(super) unsafe fn take<Id>(
        &self,
        count: u32,
        to: &mut Arguments<Id>,
        mut id: impl FnMut(&RawArgument) -> Id,
    ) -> usize {
        let mut descriptors = 0;
        let flats = &self.arguments[..count as usize];
        let length = to.len();
        if to.capacity() - length < flats.len() {
            to.reserve(flats.len());
        }
        // SAFETY: the arguments that are there are followed by as much room as was reserved.
        let mut place = unsafe { to.as_mut_ptr().add(length) };
        for flat in flats {
            let argument = self.argument(flat, &mut id, |number| {
                descriptors += 1;
                // SAFETY: the session has handed this descriptor out with the message, by the caller's promise.
                unsafe { take_back(number) }
            });
            // SAFETY: room was reserved for all of them.
            unsafe {
                place.write(argument);
                place = place.add(1);
            }
        }
        // SAFETY: so many were written. Were `id` to panic, they would be lost.
        unsafe { to.set_len(length + flats.len()) };
        descriptors
    }
}

/// A string that came.
fn text(bytes: &[u8]) -> CString {
    // With room for the zero at its end, it is not allocated again.
    let mut owned = Vec::with_capacity(bytes.len() + 1);
    owned.extend_from_slice(bytes);
    // SAFETY: the library hands out no string with a zero byte.
    unsafe { CString::from_vec_unchecked(owned) }
}
