//! Interfaces, messages and their arguments, and protocol errors.

use std::any::type_name;
use std::error::Error;
use std::ffi::CString;
use std::fmt;
use std::mem::discriminant;
use std::os::unix::io::AsRawFd;

use smallvec::SmallVec;

pub use wayland_sys::common::{wl_argument, wl_interface, wl_message};

/// Whether a string or object argument may be null.
#[derive(Clone, Copy, PartialEq, Eq, Debug)]
pub enum AllowNull {
    /// It may be null.
    Yes,
    /// It may not be null.
    No,
}

/// The type of an argument, as a message's signature has it.
#[derive(Copy, Clone, PartialEq, Eq, Debug)]
pub enum ArgumentType {
    /// A signed number, an [`i32`].
    Int,
    /// An unsigned number, a [`u32`].
    Uint,
    /// A signed number in 256ths.
    Fixed,
    /// A string, a [`CString`].
    Str(AllowNull),
    /// An object.
    Object(AllowNull),
    /// An object that the message makes.
    NewId,
    /// An array of bytes.
    Array,
    /// A file descriptor.
    Fd,
}

impl ArgumentType {
    /// Whether both are the same type, apart from whether they may be null.
    pub fn same_type(self, other: Self) -> bool {
        discriminant(&self) == discriminant(&other)
    }
}

/// An argument of a message. Objects are named by `Id`, and a descriptor is an `Fd`.
#[derive(Debug, Clone)]
#[allow(clippy::box_collection)]
pub enum Argument<Id, Fd> {
    /// A signed number.
    Int(i32),
    /// An unsigned number.
    Uint(u32),
    /// A signed number in 256ths: 384 is 1.5.
    Fixed(i32),
    /// A string, or null. The box keeps arguments small.
    Str(Option<Box<CString>>),
    /// An object; a null id if there is none.
    Object(Id),
    /// An object that the message makes. In a request it is a null id: the session chooses the number.
    NewId(Id),
    /// An array of bytes. The box keeps arguments small.
    Array(Box<Vec<u8>>),
    /// A file descriptor.
    Fd(Fd),
}

impl<Id, Fd> Argument<Id, Fd> {
    /// The argument's type. Strings and objects are of the type that may be null.
    pub fn get_type(&self) -> ArgumentType {
        match self {
            Argument::Int(_) => ArgumentType::Int,
            Argument::Uint(_) => ArgumentType::Uint,
            Argument::Fixed(_) => ArgumentType::Fixed,
            Argument::Str(_) => ArgumentType::Str(AllowNull::Yes),
            Argument::Object(_) => ArgumentType::Object(AllowNull::Yes),
            Argument::NewId(_) => ArgumentType::NewId,
            Argument::Array(_) => ArgumentType::Array,
            Argument::Fd(_) => ArgumentType::Fd,
        }
    }

    fn map_fd<T>(self, map: &mut impl FnMut(Fd) -> T) -> Argument<Id, T> {
        match self {
            Argument::Fd(fd) => Argument::Fd(map(fd)),
            Argument::Int(value) => Argument::Int(value),
            Argument::Uint(value) => Argument::Uint(value),
            Argument::Fixed(value) => Argument::Fixed(value),
            Argument::Str(value) => Argument::Str(value),
            Argument::Object(id) => Argument::Object(id),
            Argument::NewId(id) => Argument::NewId(id),
            Argument::Array(value) => Argument::Array(value),
        }
    }
}

impl<Id: PartialEq, Fd: AsRawFd> PartialEq for Argument<Id, Fd> {
    /// Descriptors are equal if their numbers are.
    fn eq(&self, other: &Self) -> bool {
        use Argument::{Array, Fd, Fixed, Int, NewId, Object, Str, Uint};
        match (self, other) {
            (Int(one), Int(two)) | (Fixed(one), Fixed(two)) => one == two,
            (Uint(one), Uint(two)) => one == two,
            (Str(one), Str(two)) => one == two,
            (Object(one), Object(two)) | (NewId(one), NewId(two)) => one == two,
            (Array(one), Array(two)) => one == two,
            (Fd(one), Fd(two)) => one.as_raw_fd() == two.as_raw_fd(),
            _ => false,
        }
    }
}

impl<Id: Eq, Fd: AsRawFd> Eq for Argument<Id, Fd> {}

impl<Id: fmt::Display, Fd: AsRawFd> fmt::Display for Argument<Id, Fd> {
    fn fmt(&self, f: &mut fmt::Formatter<'_>) -> fmt::Result {
        match self {
            Argument::Int(value) => value.fmt(f),
            Argument::Uint(value) => value.fmt(f),
            Argument::Fixed(value) => write!(f, "{:.4}", f64::from(*value) / 256.0),
            Argument::Str(value) => write!(f, "{value:?}"),
            Argument::Object(id) | Argument::NewId(id) => id.fmt(f),
            Argument::Array(value) => write!(f, "{value:?}"),
            Argument::Fd(fd) => fd.as_raw_fd().fmt(f),
        }
    }
}

/// An interface: which requests and events its objects have.
///
/// Generated code has one static for each interface. A session keeps what it is given for as long as it lives, and two
/// statics of the same name stand for the same interface.
#[derive(Debug)]
pub struct Interface {
    /// Its name, such as `wl_surface`.
    pub name: &'static str,
    /// The greatest version that these messages cover.
    pub version: u32,
    /// Its requests; the index of one is its opcode.
    pub requests: &'static [MessageDesc],
    /// Its events; the index of one is its opcode.
    pub events: &'static [MessageDesc],
    /// The same for libwayland, if there is one. This crate does not look at it.
    pub c_ptr: Option<&'static wl_interface>,
}

impl fmt::Display for Interface {
    fn fmt(&self, f: &mut fmt::Formatter<'_>) -> fmt::Result {
        f.write_str(self.name)
    }
}

/// A request or an event of an interface.
#[derive(Copy, Clone, Debug)]
pub struct MessageDesc {
    /// Its name, such as `attach`.
    pub name: &'static str,
    /// The types of its arguments.
    pub signature: &'static [ArgumentType],
    /// The version of the interface since which it is there.
    pub since: u32,
    /// Whether it ends its object.
    pub is_destructor: bool,
    /// The interface of the object that it makes. `None` if it makes none, or if the sender chooses, as with
    /// `wl_registry.bind`.
    pub child_interface: Option<&'static Interface>,
    /// The interfaces of its object arguments, in their order.
    pub arg_interfaces: &'static [&'static Interface],
}

/// Stands for any interface, and for that of a null id.
pub static ANONYMOUS_INTERFACE: Interface = Interface {
    name: "<anonymous>",
    version: 0,
    requests: &[],
    events: &[],
    c_ptr: None,
};

/// What the protocol knows of an object.
#[derive(Copy, Clone, Debug)]
pub struct ObjectInfo {
    /// Its number.
    pub id: u32,
    /// Its interface.
    pub interface: &'static Interface,
    /// Its version.
    pub version: u32,
}

/// A protocol error: one side broke the protocol, and the server ended the connection.
#[derive(Clone, Debug)]
pub struct ProtocolError {
    /// Which error, among those of the interface.
    pub code: u32,
    /// The number of the object that was misused.
    pub object_id: u32,
    /// The name of that object's interface.
    pub object_interface: String,
    /// What the server said about it.
    pub message: String,
}

impl Error for ProtocolError {}

impl fmt::Display for ProtocolError {
    fn fmt(&self, f: &mut fmt::Formatter<'_>) -> fmt::Result {
        let ProtocolError {
            code,
            object_id,
            object_interface,
            message,
        } = self;
        write!(
            f,
            "Protocol error {code} on object {object_interface}@{object_id}"
        )?;
        if message.is_empty() {
            return Ok(());
        }
        write!(f, ": {message}")
    }
}

/// How many arguments of a [`Message`] need no allocation.
pub const INLINE_ARGS: usize = 4;

/// A request or an event, with its arguments.
#[derive(Clone, Debug)]
pub struct Message<Id, Fd> {
    /// The object that it is of.
    pub sender_id: Id,
    /// Its index among the requests, or events, of the object's interface.
    pub opcode: u16,
    /// Its arguments.
    pub args: SmallVec<[Argument<Id, Fd>; INLINE_ARGS]>,
}

impl<Id, Fd> Message<Id, Fd> {
    /// The same message, with `f` applied to each of its descriptors in order.
    pub fn map_fd<T>(self, mut f: impl FnMut(Fd) -> T) -> Message<Id, T> {
        Message {
            sender_id: self.sender_id,
            opcode: self.opcode,
            args: self
                .args
                .into_iter()
                .map(|argument| argument.map_fd(&mut f))
                .collect(),
        }
    }
}

impl<Id: PartialEq, Fd: AsRawFd> PartialEq for Message<Id, Fd> {
    fn eq(&self, other: &Self) -> bool {
        self.opcode == other.opcode && self.sender_id == other.sender_id && self.args == other.args
    }
}

impl<Id: Eq, Fd: AsRawFd> Eq for Message<Id, Fd> {}

/// Whether two interfaces are the same: one static, or two of the same name.
#[inline]
pub fn same_interface(a: &'static Interface, b: &'static Interface) -> bool {
    std::ptr::eq(a, b) || a.name == b.name
}

/// Whether a text of a message that came is null where its interface allows none. Code that is generated relies on it.
#[inline]
pub(crate) fn has_forbidden_null<Id, Fd>(
    messages: &[MessageDesc],
    opcode: u16,
    args: &[Argument<Id, Fd>],
) -> bool {
    args.iter().any(|it| matches!(it, Argument::Str(None)))
        && messages.get(usize::from(opcode)).is_some_and(|message| {
            let mut pairs = message.signature.iter().zip(args);
            pairs.any(|it| matches!(it, (ArgumentType::Str(AllowNull::No), Argument::Str(None))))
        })
}

/// A value of an enum of the protocol.
#[derive(Debug, Clone, Copy, PartialEq, Eq)]
pub enum WEnum<T> {
    /// A value that the protocol file names.
    Value(T),
    /// Another number: the other side may know a later version.
    Unknown(u32),
}

/// A number that is no value of an enum of the protocol.
#[derive(Debug, Copy, Clone)]
pub struct WEnumError {
    typ: &'static str,
    value: u32,
}

impl Error for WEnumError {}

impl fmt::Display for WEnumError {
    fn fmt(&self, f: &mut fmt::Formatter<'_>) -> fmt::Result {
        write!(
            f,
            "Unknown numeric value {} for enum {}",
            self.value, self.typ
        )
    }
}

impl<T> WEnum<T> {
    /// The value, or an error if the protocol file does not name it.
    #[inline]
    pub fn into_result(self) -> Result<T, WEnumError> {
        match self {
            WEnum::Value(value) => Ok(value),
            WEnum::Unknown(value) => Err(WEnumError {
                typ: type_name::<T>(),
                value,
            }),
        }
    }
}

impl<T> From<WEnum<T>> for Result<T, WEnumError> {
    fn from(value: WEnum<T>) -> Self {
        value.into_result()
    }
}

impl<T: TryFrom<u32>> From<u32> for WEnum<T> {
    /// The value for the number that crosses the wire.
    fn from(number: u32) -> Self {
        T::try_from(number).map_or(WEnum::Unknown(number), WEnum::Value)
    }
}

impl<T: Into<u32>> From<WEnum<T>> for u32 {
    /// The number that crosses the wire.
    fn from(value: WEnum<T>) -> u32 {
        match value {
            WEnum::Value(value) => value.into(),
            WEnum::Unknown(number) => number,
        }
    }
}
