//! Arguments for any message, by its signature alone, and how those that came are told.

use std::ffi::CString;
use std::fmt::Display;
use std::os::fd::{AsRawFd, OwnedFd, RawFd};

use wayland_backend::protocol::{
    AllowNull, Argument, ArgumentType, Interface, MessageDesc, ANONYMOUS_INTERFACE,
};

use crate::process::{file, text_of};

/// In each round an argument has another value: a usual one, the least or none, and a long one.
pub const ROUNDS: usize = 3;

/// The objects of one side, for messages of that side.
pub trait Objects<Id> {
    fn null(&self) -> Id;
    /// An object of this interface; `None` stands for an interface that a message leaves open.
    fn with(&self, interface: Option<&'static Interface>) -> Option<Id>;
    fn create(&mut self, interface: &'static Interface) -> Id;
}

pub struct Made<Id> {
    pub arguments: Vec<Argument<Id, RawFd>>,
    /// The files that are open until the message is sent.
    pub files: Vec<OwnedFd>,
}

/// The arguments of a message in this round. There are none if it needs an object that nobody has.
pub fn made<Id>(
    message: &MessageDesc,
    round: usize,
    objects: &mut impl Objects<Id>,
) -> Option<Made<Id>> {
    let mut made = Made { arguments: Vec::new(), files: Vec::new() };
    let mut interfaces = message.arg_interfaces.iter();
    for (place, kind) in message.signature.iter().enumerate() {
        let argument = match kind {
            ArgumentType::Object(null) => {
                object(interfaces.next().copied(), *null, round, objects)?
            }
            ArgumentType::NewId => Argument::NewId(objects.create(message.child_interface?)),
            ArgumentType::Fd => {
                made.files.push(file(&format!("{} {round} {place}", message.name)));
                Argument::Fd(made.files.last()?.as_raw_fd())
            }
            _ => value(*kind, round, round + place),
        };
        made.arguments.push(argument);
    }
    Some(made)
}

fn object<Id>(
    interface: Option<&'static Interface>,
    null: AllowNull,
    round: usize,
    objects: &mut impl Objects<Id>,
) -> Option<Argument<Id, RawFd>> {
    if null == AllowNull::Yes && round == 1 {
        return Some(Argument::Object(objects.null()));
    }
    let interface = interface.filter(|it| it.name != ANONYMOUS_INTERFACE.name);
    objects.with(interface).map(Argument::Object)
}

fn value<Id>(kind: ArgumentType, round: usize, seed: usize) -> Argument<Id, RawFd> {
    let text = |it: String| Argument::Str(Some(Box::new(CString::new(it).unwrap())));
    match kind {
        ArgumentType::Int => Argument::Int([7, i32::MIN, -1, i32::MAX, 0][seed % 5]),
        ArgumentType::Uint => Argument::Uint([7, u32::MAX, 1, 0x8000_0000, 0][seed % 5]),
        ArgumentType::Fixed => Argument::Fixed([640, i32::MIN, -1, i32::MAX, 0][seed % 5]),
        ArgumentType::Str(AllowNull::Yes) if round == 1 => Argument::Str(None),
        ArgumentType::Str(_) => text(match round {
            0 => format!("text {seed}"),
            1 => String::new(),
            _ => "Łódź ".repeat(20 + seed),
        }),
        ArgumentType::Array => {
            Argument::Array(Box::new((0..[5, 0, 70 + seed as u8][round]).collect()))
        }
        _ => unreachable!("objects and files are made elsewhere"),
    }
}

/// Which objects and files came, and each value.
pub fn told<Id: Display>(arguments: &[Argument<Id, OwnedFd>]) -> String {
    let one = |it: &Argument<Id, OwnedFd>| match it {
        Argument::Int(value) => format!("int {value}"),
        Argument::Uint(value) => format!("uint {value}"),
        Argument::Fixed(value) => format!("fixed {value}"),
        Argument::Str(text) => format!("text {text:?}"),
        Argument::Array(bytes) => format!("array {bytes:?}"),
        Argument::Object(id) => format!("object {id}"),
        Argument::NewId(id) => format!("new {id}"),
        Argument::Fd(file) => format!("file {:?}", text_of(file)),
    };
    arguments.iter().map(one).collect::<Vec<_>>().join(", ")
}

/// The object that a message makes.
pub fn child<Id: Clone, Fd>(arguments: &[Argument<Id, Fd>]) -> Option<Id> {
    arguments
        .iter()
        .find_map(|it| if let Argument::NewId(id) = it { Some(id.clone()) } else { None })
}
