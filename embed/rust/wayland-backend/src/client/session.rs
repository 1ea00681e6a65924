//! What stands behind a connection's lock: the session, and what the program keeps for its objects.

use std::fmt;
use std::io;
use std::mem;
use std::os::unix::io::{BorrowedFd, RawFd};
use std::sync::Arc;

use rustix::io::Errno;

use super::leaving::{ByNumber, Leaving};
use super::reading::Readers;
use super::unprinted;
use super::{DisplayData, Mark, MissingData, ObjectData, ObjectId, WaylandError};
use crate::data::Slab;
use crate::library::{
    Arguments, Client, Event, Outgoing, RawArgument, RawObjectId, Receipt, Request, SessionError,
    Status,
};
use crate::panics::Panics;
use crate::protocol::{ArgumentType, Interface, Message, MessageDesc, ObjectInfo, ProtocolError};
use crate::table::{BadInterface, Table};

/// What is kept for an object.
#[derive(Debug)]
struct Kept {
    data: Arc<dyn ObjectData>,
    /// The static that the object was made with.
    interface: &'static Interface,
}

/// A session, its table, and the data of its objects.
#[derive(Debug)]
pub(super) struct Session {
    pub(super) library: Client,
    /// What the ids of its objects have of it.
    mark: Mark,
    table: Table,
    data: Slab<Kept>,
    /// The event that was handed out last.
    event: Event,
    /// Objects that were destroyed, whose data are kept until they leave their numbers.
    leaving: ByNumber,
    outgoing: Outgoing,
    /// What ended the connection on this side: the socket failed while it was written, or a descriptor of a request could
    /// not be duplicated, so that nothing behind it can be sent.
    fault: Option<Fault>,
    /// Whether a call was answered that the session has an error. Nothing is received any more.
    has_failed: bool,
    pub(super) readers: Readers,
    /// Whether messages are printed.
    prints: bool,
}

/// What ended a connection on this side.
#[derive(Debug)]
enum Fault {
    System(Errno),
    /// An event had a null text where its interface allows none, or an opcode that its object's static lacks. The library
    /// lets it pass.
    Malformed,
}

/// Why a call failed.
pub(super) struct Failure {
    error: WaylandError,
    /// Whether the error is to be logged.
    is_new: bool,
}

impl Failure {
    /// The error. It is logged when it is answered first. The session must not be locked, since a logger may use it.
    pub(super) fn logged(self) -> WaylandError {
        if self.is_new {
            crate::log_error!("{}", self.error);
        }
        self.error
    }
}

impl From<Errno> for Failure {
    /// An error that is no end of the connection.
    fn from(error: Errno) -> Failure {
        Failure {
            error: io::Error::from(error).into(),
            is_new: false,
        }
    }
}

/// Why a request was not sent.
pub(super) enum Refused {
    InvalidId,
    Misuse(Status),
    BadInterface(BadInterface),
}

impl From<Status> for Refused {
    fn from(status: Status) -> Refused {
        match status {
            Status::INVALID_ID => Refused::InvalidId,
            status => Refused::Misuse(status),
        }
    }
}

/// An event that is to be handed out.
pub(super) struct OpenEvent {
    /// The data of the object that it was sent to.
    pub(super) data: Arc<dyn ObjectData>,
    pub(super) sender_id: ObjectId,
    pub(super) opcode: u16,
}

/// A callback that answered what does not fit its event.
pub(super) enum Misuse {
    NoData(ObjectId),
    UnexpectedData,
}

impl fmt::Display for Misuse {
    fn fmt(&self, f: &mut fmt::Formatter<'_>) -> fmt::Result {
        match self {
            Misuse::NoData(object) => write!(
                f,
                "Callback creating object {object} did not provide any object data."
            ),
            Misuse::UnexpectedData => {
                f.write_str("An object data was returned from a callback not creating any object")
            }
        }
    }
}

/// What a call leaves to be done when the lock is free, since it is the program's code.
///
/// Most calls leave nothing or one object, so that is cheap to make and to drop.
#[derive(Default)]
pub(super) struct Leftovers {
    /// The first object that was destroyed, whose data are to be told.
    ended: Option<Ended>,
    /// The first data that nobody can ask for any more.
    unused: Option<Arc<dyn ObjectData>>,
    more: Option<Box<MoreLeftovers>>,
}

/// An object that was destroyed, with its data.
type Ended = (Arc<dyn ObjectData>, ObjectId);

/// What does not fit into [`Leftovers`].
#[derive(Default)]
struct MoreLeftovers {
    ended: Vec<Ended>,
    unused: Vec<Arc<dyn ObjectData>>,
}

impl Leftovers {
    /// Tells the data of the objects that were destroyed, and drops the other data.
    #[inline]
    pub(super) fn settle(mut self) {
        if self.is_empty() {
            mem::forget(self); // there is nothing to drop
        } else {
            self.settle_all();
        }
    }

    #[inline]
    pub(super) fn is_empty(&self) -> bool {
        self.ended.is_none() && self.unused.is_none() && self.more.is_none()
    }

    /// These data are not needed any more. There are none almost always.
    #[inline]
    fn leave(&mut self, data: Option<Arc<dyn ObjectData>>) {
        if let Some(data) = data {
            if self.unused.is_none() {
                self.unused = Some(data);
            } else {
                self.more().unused.push(data);
            }
        }
    }

    /// The data of this object are to be told that it was destroyed.
    #[inline]
    fn end(&mut self, data: Arc<dyn ObjectData>, id: ObjectId) {
        if self.ended.is_none() {
            self.ended = Some((data, id));
        } else {
            self.more().ended.push((data, id));
        }
    }

    #[cold]
    fn more(&mut self) -> &mut MoreLeftovers {
        self.more.get_or_insert_with(Box::default)
    }

    fn settle_all(&mut self) {
        let mut panics = Panics::default();
        let mut more = self.more.take();
        if let Some((data, id)) = self.ended.take() {
            panics.catch(|| data.destroyed(id));
        }
        if let Some(more) = &mut more {
            for (data, id) in more.ended.drain(..) {
                panics.catch(|| data.destroyed(id));
            }
        }
        if let Some(data) = self.unused.take() {
            panics.catch(|| drop(data));
        }
        if let Some(more) = more {
            for data in more.unused {
                panics.catch(|| drop(data));
            }
        }
        panics.go_on();
    }
}

impl Session {
    /// `prints` says whether messages are printed.
    pub(super) fn new(prints: bool) -> Session {
        let mut session = Session {
            library: Client::new(),
            mark: Mark::next(),
            table: Table::new(),
            data: Slab::new(),
            event: Event::default(),
            leaving: ByNumber::default(),
            outgoing: Outgoing::default(),
            fault: None,
            has_failed: false,
            readers: Readers::default(),
            prints,
        };
        if prints {
            session.library.tell_messages();
        }
        let display = session.library.display();
        let interface = session.table.interface(display.interface);
        let key = session.data.insert(Kept {
            data: Arc::new(DisplayData),
            interface,
        });
        let answer = session.library.set_object_data(&display, key);
        debug_assert_eq!(answer, Ok(()));
        session
    }

    fn id(&self, raw: &RawObjectId, interface: &'static Interface) -> ObjectId {
        ObjectId::new(raw, interface, self.mark)
    }

    /// The id of the display.
    pub(super) fn display(&mut self) -> ObjectId {
        let display = self.library.display();
        self.id(&display, self.table.interface(display.interface))
    }

    /// The session's error.
    pub(super) fn error(&mut self) -> Option<WaylandError> {
        match self.fault {
            Some(Fault::System(number)) => return Some(io::Error::from(number).into()),
            Some(Fault::Malformed) => return Some(malformed().into()),
            None => {}
        }
        Some(match self.library.last_error()? {
            SessionError::Io { status, number } => io_error(status, number).into(),
            SessionError::Protocol {
                code,
                object,
                interface,
                message,
            } => ProtocolError {
                code,
                object_id: object,
                object_interface: interface,
                message,
            }
            .into(),
        })
    }

    /// The error of a session that has one.
    pub(super) fn failed(&mut self) -> Failure {
        let error = self
            .error()
            .unwrap_or_else(|| io::Error::from(Errno::PIPE).into());
        let is_new = !mem::replace(&mut self.has_failed, true);
        Failure { error, is_new }
    }

    /// The socket failed while it was written.
    pub(super) fn send_failed(&mut self, error: Errno) {
        self.library.send_failed(error);
        self.fault.get_or_insert(Fault::System(error));
    }

    /// Hands what waits over to be sent. Statuses: `FAILED`, `WOULD_BLOCK`.
    pub(super) fn flush(&mut self) -> Result<(), Status> {
        if self.fault.is_some() {
            return Err(Status::FAILED);
        }
        self.library.flush()
    }

    /// What is kept for an object.
    fn kept(&mut self, id: &RawObjectId) -> Option<&Kept> {
        let key = self.library.object_data(id)?;
        self.data.get(key)
    }

    /// The number, interface and version of an object.
    pub(super) fn info(&mut self, id: &ObjectId) -> Option<ObjectInfo> {
        let info = self.library.object_info(&id.raw())?;
        // The id may be another connection's.
        let interface = self.kept(&id.raw()).map(|kept| kept.interface);
        Some(ObjectInfo {
            id: info.number,
            interface: interface.unwrap_or(id.interface),
            version: info.version,
        })
    }

    /// The data of an object.
    pub(super) fn get_data(&mut self, id: &ObjectId) -> Option<Arc<dyn ObjectData>> {
        if let Some(kept) = self.kept(&id.raw()) {
            return Some(kept.data.clone());
        }
        // An object that an event has just made gets its data when the callback has answered.
        self.library.object_info(&id.raw())?;
        Some(Arc::new(MissingData))
    }

    /// Gives an object other data, and answers those that it had. The error says that it is gone.
    pub(super) fn set_data(
        &mut self,
        id: &ObjectId,
        data: Arc<dyn ObjectData>,
    ) -> Result<Option<Arc<dyn ObjectData>>, Arc<dyn ObjectData>> {
        let old = self.library.object_data(&id.raw());
        if let Some(kept) = old.and_then(|key| self.data.get_mut(key)) {
            return Ok(Some(mem::replace(&mut kept.data, data)));
        }
        // An object that an event has just made has none.
        let key = self.data.insert(Kept {
            data,
            interface: id.interface,
        });
        match self.library.set_object_data(&id.raw(), key) {
            Ok(()) => Ok(None),
            Err(_) => Err(self.data.remove(key).expect("it was just inserted").data),
        }
    }

    /// Sends a request, and answers the object that it makes.
    #[inline]
    pub(super) fn send_request(
        &mut self,
        message: &Message<ObjectId, RawFd>,
        data: Option<Arc<dyn ObjectData>>,
        child_spec: Option<(&'static Interface, u32)>,
        leftovers: &mut Leftovers,
    ) -> Result<ObjectId, Refused> {
        let sender = &message.sender_id;
        let description = sender.interface.requests.get(usize::from(message.opcode));
        let mut request = Request {
            sender: sender.raw(),
            opcode: message.opcode.into(),
            ..Request::default()
        };
        let mut interface = None;
        if description.is_some_and(makes_object) {
            interface = description.and_then(|description| description.child_interface);
            if let Some((child, version)) = child_spec {
                let library = &mut self.library;
                match self
                    .table
                    .row(child, |rows| library.extend_interfaces(rows))
                {
                    Ok(row) => request.child_interface = row,
                    Err(error) => {
                        leftovers.leave(data);
                        return Err(Refused::BadInterface(error));
                    }
                }
                request.has_child = 1;
                request.child_version = version;
                interface = Some(child);
            }
            match (data, interface) {
                (Some(data), Some(interface)) => {
                    request.has_data = 1;
                    request.data = self.data.insert(Kept { data, interface });
                }
                (data, _) => leftovers.leave(data),
            }
        } else {
            leftovers.leave(data);
        }
        let sent = self.send(message, &request);
        let created = match (sent, interface) {
            (Ok(created), Some(interface)) if created.number != 0 => self.id(&created, interface),
            (sent, _) => {
                if request.has_data != 0 {
                    self.remove_data(request.data, leftovers);
                }
                match sent {
                    Ok(_) => ObjectId::null(),
                    Err(status) => return Err(status.into()),
                }
            }
        };
        if description.is_some_and(|description| description.is_destructor) {
            self.take_notes(&request.sender, leftovers);
        }
        Ok(created)
    }

    /// Sends a request that has no data for a new object, and ends none. If it would make an object, the session refuses it.
    #[inline]
    pub(super) fn send_plain(&mut self, message: &Message<ObjectId, RawFd>) -> Result<(), Status> {
        let request = Request {
            sender: message.sender_id.raw(),
            opcode: message.opcode.into(),
            ..Request::default()
        };
        self.send(message, &request).map(|_| ())
    }

    /// What a request comes to that the sender's static lacks. The row of another static of that name may have it.
    #[cold]
    fn unknown_request(&mut self, sender: &ObjectId) -> Status {
        match self.library.object_info(&sender.raw()) {
            Some(_) => Status::UNKNOWN_OPCODE,
            None => Status::INVALID_ID,
        }
    }

    /// Hands a request to the session. If a descriptor cannot be duplicated, the session gets a number that is none in its
    /// place, so that the object of the request is there; and nothing is sent any more.
    #[inline]
    fn send(
        &mut self,
        message: &Message<ObjectId, RawFd>,
        request: &Request,
    ) -> Result<RawObjectId, Status> {
        let sender = &message.sender_id;
        if usize::from(message.opcode) >= sender.interface.requests.len() {
            return Err(self.unknown_request(sender));
        }
        let fault = self.outgoing.set(&message.args, ObjectId::raw).err();
        let sent = self.library.send_request(request, &mut self.outgoing);
        match sent {
            // An error that came before stays.
            Ok(_) if fault.is_some() && self.error().is_none() => {
                self.fault = fault.map(Fault::System);
            }
            Ok(_) => {}
            // Its descriptors are not sent.
            Err(_) => self.outgoing.clear(),
        }
        sent
    }

    fn remove_data(&mut self, key: u64, leftovers: &mut Leftovers) {
        leftovers.leave(self.data.remove(key).map(|kept| kept.data));
    }

    /// Receives once, unless nothing can be read any more: then it would be kept for ever.
    pub(super) fn receive(&mut self, socket: BorrowedFd<'_>) -> Receipt {
        if self.fault.is_some() || self.has_failed {
            return Receipt::NOTHING;
        }
        self.library.receive(socket)
    }

    /// The next event. Its arguments are appended to `args`.
    #[inline]
    pub(super) fn next_event(
        &mut self,
        args: &mut Arguments<ObjectId>,
    ) -> Result<OpenEvent, Status> {
        if self.fault.is_some() {
            return Err(Status::FAILED);
        }
        let Session {
            library,
            mark,
            table,
            data,
            event,
            prints,
            ..
        } = self;
        let next = library.next_event(event, args, |event, argument| {
            argument_id(table, data, event, argument, *mark)
        });
        if *prints {
            unprinted::print_read(library, table, next.is_ok());
        }
        next?;
        let (receiver, interface) = match data.get(event.data) {
            Some(kept) => (kept.data.clone(), kept.interface),
            None => {
                let missing: Arc<dyn ObjectData> = Arc::new(MissingData);
                (missing, table.interface(event.sender.interface))
            }
        };
        Ok(OpenEvent {
            data: receiver,
            sender_id: ObjectId::new(&event.sender, interface, *mark),
            opcode: event.opcode as u16,
        })
    }

    /// The event that was handed out is malformed, which ends the connection.
    #[cold]
    pub(super) fn refuse_event(&mut self) -> Status {
        self.fault.get_or_insert(Fault::Malformed);
        Status::FAILED
    }

    /// Finishes the event that was handed out. An object that it made gets the data that the callback answered.
    #[inline]
    pub(super) fn finish_event(
        &mut self,
        answer: Option<Arc<dyn ObjectData>>,
        leftovers: &mut Leftovers,
    ) -> Option<Misuse> {
        let mut misuse = None;
        if self.event.created.number != 0 {
            misuse = self.finish_making(answer, leftovers);
        } else {
            if answer.is_some() {
                leftovers.leave(answer);
                misuse = Some(Misuse::UnexpectedData);
            }
            let finished = self.library.finish_event(None);
            debug_assert_eq!(finished, Ok(false));
        }
        if self.event.is_destructor != 0 {
            let ended = self.event.sender;
            self.take_notes(&ended, leftovers);
        }
        misuse
    }

    /// Finishes an event that made an object.
    fn finish_making(
        &mut self,
        answer: Option<Arc<dyn ObjectData>>,
        leftovers: &mut Leftovers,
    ) -> Option<Misuse> {
        let interface = child_interface(&self.table, &self.data, &self.event);
        let raw = self.event.created;
        // The callback may have given it data, which these replace; and have destroyed it then.
        let given = self.library.object_data(&raw);
        let mut is_told = false;
        match self.leaving.get(raw.number) {
            None => {}
            Some(left) if left.serial == raw.serial => is_told = given == Some(left.key),
            Some(left) => {
                // The number was free.
                self.leaving.remove(raw.number);
                self.remove_data(left.key, leftovers);
            }
        }
        if let Some(key) = given {
            self.remove_data(key, leftovers);
        }
        let misuse = match answer {
            Some(_) => None,
            None => Some(Misuse::NoData(self.id(&raw, interface))),
        };
        let data = answer.unwrap_or_else(|| Arc::new(MissingData));
        let key = self.data.insert(Kept { data, interface });
        let finished = self.library.finish_event(Some(key));
        debug_assert!(finished.is_ok(), "{finished:?}");
        if finished != Ok(true) {
            // The callback has destroyed it: no note names these data.
            self.end(&raw, key, !is_told, leftovers);
        }
        misuse
    }

    /// Takes the objects with data that were destroyed, up to this one, which was the last.
    pub(super) fn take_notes(&mut self, last: &RawObjectId, leftovers: &mut Leftovers) {
        while let Some((raw, key)) = self.library.next_note() {
            self.end(&raw, key, true, leftovers);
            if raw.serial == last.serial && raw.number == last.number {
                break;
            }
        }
    }

    /// An object was destroyed. Its data are told so, if they are to be, and kept until it leaves its number.
    fn end(&mut self, raw: &RawObjectId, key: u64, tells: bool, leftovers: &mut Leftovers) {
        let Some(kept) = self.data.get(key) else {
            return;
        };
        if tells {
            leftovers.end(kept.data.clone(), self.id(raw, kept.interface));
        }
        let serial = raw.serial;
        // One of that number that has left before it is gone.
        if let Some(former) = self.leaving.put(raw.number, Leaving { serial, key }) {
            self.remove_data(former.key, leftovers);
        }
    }

    /// Takes out the data of objects that left their numbers.
    #[inline]
    pub(super) fn take_unused(&mut self, leftovers: &mut Leftovers) {
        while let Some(freed) = self.library.next_freed() {
            match self.leaving.get(freed.number) {
                Some(left) if left.serial == freed.serial => {
                    self.leaving.remove(freed.number);
                    self.remove_data(left.key, leftovers);
                }
                // They were taken out when another object took the number.
                _ => {}
            }
        }
    }
}

/// Whether the request makes an object.
fn makes_object(request: &MessageDesc) -> bool {
    let mut types = request.signature.iter();
    types.any(|argument| matches!(argument, ArgumentType::NewId))
}

/// The id of an object among an event's arguments.
fn argument_id(
    table: &Table,
    data: &Slab<Kept>,
    event: &Event,
    argument: &RawArgument,
    mark: Mark,
) -> ObjectId {
    let raw = &argument.object;
    if raw.number == 0 {
        return ObjectId::null();
    }
    let interface = if raw.number == event.created.number {
        child_interface(table, data, event)
    } else {
        data.get(argument.data)
            .map_or_else(|| table.interface(raw.interface), |kept| kept.interface)
    };
    ObjectId::new(raw, interface, mark)
}

/// The interface of the object that an event made: the static that the sender's names.
fn child_interface(table: &Table, data: &Slab<Kept>, event: &Event) -> &'static Interface {
    data.get(event.data)
        .and_then(|kept| {
            kept.interface
                .events
                .get(event.opcode as usize)?
                .child_interface
        })
        .unwrap_or_else(|| table.interface(event.created.interface))
}

/// The error that the library has for a message that is malformed.
fn malformed() -> ProtocolError {
    ProtocolError {
        code: 0,
        object_id: 0,
        object_interface: String::new(),
        message: "Malformed Wayland message.".into(),
    }
}

/// The system's error for a fault of a session.
fn io_error(status: Status, number: i32) -> io::Error {
    match status {
        Status::IO_ERROR => io::Error::from_raw_os_error(number),
        Status::TOO_BIG => Errno::TOOBIG.into(),
        Status::PROTOCOL_ERROR => Errno::PROTO.into(),
        _ => Errno::PIPE.into(),
    }
}
