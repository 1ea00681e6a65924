//! A client of a Wayland server.
//!
//! A [`Backend`] is a connection. Requests are sent by [`Backend::send_request`], and wait until [`Backend::flush`].
//! Events are read by way of [`Backend::prepare_read`], and handed to the [`ObjectData`] of their objects.
//!
//! No lock is held while a callback runs: it may call the backend as it likes. If it panics, the panic comes out of the
//! call that read the event, when all events that came with it were handed out; and the backend can be used further.

use std::any::Any;
use std::fmt;
use std::hash::{Hash, Hasher};
use std::os::unix::io::{BorrowedFd, OwnedFd, RawFd};
use std::os::unix::net::UnixStream;
use std::sync::{Arc, Weak};

use crate::library::RawObjectId;
#[cfg(not(feature = "client_system"))]
use crate::mark::NoMark as Mark;
use crate::protocol::{same_interface, Interface, Message, ObjectInfo, ANONYMOUS_INTERFACE};
#[cfg(feature = "client_system")]
use crate::sys::Address as Mark;

mod connection;
mod leaving;
mod misuse;
mod reading;
mod session;
mod unprinted;

use connection::Connection;

pub use crate::types::client::{InvalidId, NoWaylandLib, WaylandError};

/// What a program keeps for an object, and how it takes the object's events.
///
/// It is shared, so its methods take `&self`: what changes needs a lock or a cell of its own.
pub trait ObjectData: downcast_rs::DowncastSync {
    /// Takes an event of the object.
    ///
    /// If the event makes an object, one of its arguments is [`Argument::NewId`], and the data for the new object are
    /// returned. Otherwise the answer is `None`. The descriptors of the event are the callee's.
    ///
    /// [`Argument::NewId`]: crate::protocol::Argument::NewId
    fn event(
        self: Arc<Self>,
        backend: &Backend,
        msg: Message<ObjectId, OwnedFd>,
    ) -> Option<Arc<dyn ObjectData>>;

    /// The object was destroyed, by the program, by a request or by an event. It comes once for each object that is.
    fn destroyed(&self, object_id: ObjectId);

    /// Prints the data, for the `Debug` of `dyn ObjectData`. If it is not given, that is `ObjectData { .. }`.
    fn debug(&self, f: &mut fmt::Formatter<'_>) -> fmt::Result {
        f.debug_struct("ObjectData").finish_non_exhaustive()
    }

    /// The data that a program may downcast to, as `Proxy::data` of wayland-client does. If it is not given, they are the
    /// whole of `self`.
    fn data_as_any(&self) -> &dyn Any {
        self.as_any()
    }
}

downcast_rs::impl_downcast!(sync ObjectData);

impl fmt::Debug for dyn ObjectData {
    fn fmt(&self, f: &mut fmt::Formatter<'_>) -> fmt::Result {
        self.debug(f)
    }
}

/// The id of an object.
///
/// It names one object for ever: the protocol uses numbers again, but an id of an object that is gone equals no id of a
/// later one. Ids can be kept, compared and thrown away at will.
#[derive(Clone)]
pub struct ObjectId {
    serial: u64,
    number: u32,
    interface: &'static Interface,
    /// Which connection it is of.
    mark: Mark,
}

impl ObjectId {
    /// Whether this is the null id. An id of an object that is gone is not null.
    #[inline]
    pub fn is_null(&self) -> bool {
        self.number == 0
    }

    /// The null id, which names no object. It stands for an object argument that is left out, and for the object that a
    /// request makes ([`Backend::send_request`]).
    #[inline]
    pub fn null() -> ObjectId {
        ObjectId {
            serial: 0,
            number: 0,
            interface: &ANONYMOUS_INTERFACE,
            mark: Mark::NONE,
        }
    }

    /// The object's interface: the static that the object was made with.
    #[inline]
    pub fn interface(&self) -> &'static Interface {
        self.interface
    }

    /// The object's number in the protocol. It is used again when the object is gone, so it is no name for the object.
    #[inline]
    pub fn protocol_id(&self) -> u32 {
        self.number
    }

    /// The id for the library, which does not look at the interface.
    #[inline]
    fn raw(&self) -> RawObjectId {
        RawObjectId {
            serial: self.serial,
            number: self.number,
            ..RawObjectId::default()
        }
    }

    #[inline]
    fn new(raw: &RawObjectId, interface: &'static Interface, mark: Mark) -> ObjectId {
        ObjectId {
            serial: raw.serial,
            number: raw.number,
            interface,
            mark,
        }
    }

    /// Which connection it is of. The null id is of none.
    #[inline]
    pub(crate) fn mark(&self) -> Mark {
        self.mark
    }
}

impl PartialEq for ObjectId {
    fn eq(&self, other: &Self) -> bool {
        self.number == other.number
            && self.serial == other.serial
            && self.mark == other.mark
            && same_interface(self.interface, other.interface)
    }
}

impl Eq for ObjectId {}

impl Hash for ObjectId {
    fn hash<H: Hasher>(&self, state: &mut H) {
        self.serial.hash(state);
        self.number.hash(state);
    }
}

impl fmt::Display for ObjectId {
    fn fmt(&self, f: &mut fmt::Formatter<'_>) -> fmt::Result {
        write!(f, "{}@{}", self.interface.name, self.number)
    }
}

impl fmt::Debug for ObjectId {
    fn fmt(&self, f: &mut fmt::Formatter<'_>) -> fmt::Result {
        write!(f, "ObjectId({self}, {})", self.serial)
    }
}

/// A connection to a server. Clones are the same connection, and it can be used from any thread.
#[derive(Clone, Debug)]
pub struct Backend {
    connection: Arc<Connection>,
}

impl PartialEq for Backend {
    /// Whether both are the same connection.
    fn eq(&self, other: &Self) -> bool {
        Arc::ptr_eq(&self.connection, &other.connection)
    }
}

impl Eq for Backend {}

/// A handle to a [`Backend`] that does not keep the connection open.
#[derive(Clone, Debug)]
pub struct WeakBackend {
    connection: Weak<Connection>,
}

impl WeakBackend {
    /// The backend, unless its last clone was dropped.
    pub fn upgrade(&self) -> Option<Backend> {
        self.connection
            .upgrade()
            .map(|connection| Backend { connection })
    }
}

impl Backend {
    /// Makes a connection over a stream to a server. It never fails.
    pub fn connect(stream: UnixStream) -> Result<Self, NoWaylandLib> {
        let backend = Backend {
            connection: Arc::new(Connection::new(stream)),
        };
        #[cfg(feature = "client_system")]
        crate::sys::open_connection(&backend);
        Ok(backend)
    }

    /// A handle that does not keep the connection open.
    pub fn downgrade(&self) -> WeakBackend {
        WeakBackend {
            connection: Arc::downgrade(&self.connection),
        }
    }

    /// Sends what waits.
    ///
    /// An error that is `WouldBlock` says that the socket takes no more now: flush again when it can be written. Any
    /// other error has ended the connection.
    pub fn flush(&self) -> Result<(), WaylandError> {
        self.connection.flush()
    }

    /// The socket, to be polled.
    #[inline]
    pub fn poll_fd(&self) -> BorrowedFd<'_> {
        self.connection.socket()
    }

    /// The id of the `wl_display`.
    #[inline]
    pub fn display_id(&self) -> ObjectId {
        self.connection.display()
    }

    /// The error that has ended the connection, if one has.
    #[inline]
    pub fn last_error(&self) -> Option<WaylandError> {
        self.connection.last_error()
    }

    /// An object's number, interface and version.
    ///
    /// The error says that the object is gone, or that the program has destroyed it.
    #[inline]
    pub fn info(&self, id: ObjectId) -> Result<ObjectInfo, InvalidId> {
        self.connection.info(&id)
    }

    /// Destroys an object on the client's side, without a request. A request or event that is a destructor does it by
    /// itself.
    ///
    /// The error says that the object is gone, or that it was destroyed before. The display cannot be destroyed.
    pub fn destroy_object(&self, id: &ObjectId) -> Result<(), InvalidId> {
        self.connection.destroy_object(id)
    }

    /// Sends a request: it waits until [`Backend::flush`].
    ///
    /// If the request makes an object, the answer is its id, and otherwise the null id. The new id among the arguments is
    /// then [`ObjectId::null`], `data` has the object's data, and `child_spec` its interface and version. `child_spec`
    /// may be `None` if the protocol names the interface; the version is then the sender's. Descriptors are duplicated:
    /// the caller's stay its own.
    ///
    /// The error says that the sender, or an object among the arguments, is gone. If the connection has ended, nothing is
    /// sent, and that is no error.
    ///
    /// # Panics
    ///
    /// If the sender's interface has no request of this opcode; if the arguments are not those of the request, or one is
    /// an object of another interface, or null where it may not be; if the new id is not null; if `data` or the interface
    /// of the new object is missing; if `child_spec` is not what the protocol says.
    pub fn send_request(
        &self,
        msg: Message<ObjectId, RawFd>,
        data: Option<Arc<dyn ObjectData>>,
        child_spec: Option<(&'static Interface, u32)>,
    ) -> Result<ObjectId, InvalidId> {
        self.connection.send_request(&msg, data, child_spec)
    }

    /// An object's data. They are there until the object leaves its number, also if the program has destroyed it: until the
    /// server deletes its id after that, or makes an object of its own at its number.
    ///
    /// The error says that the object is gone.
    pub fn get_data(&self, id: ObjectId) -> Result<Arc<dyn ObjectData>, InvalidId> {
        self.connection.get_data(&id)
    }

    /// Gives an object other data.
    ///
    /// The error says that the object is gone.
    pub fn set_data(&self, id: ObjectId, data: Arc<dyn ObjectData>) -> Result<(), InvalidId> {
        self.connection.set_data(&id, data)
    }

    /// Says that events are going to be read.
    ///
    /// While another thread reads, it waits until that one has ended: so what came before was handed out, and `poll` tells
    /// of all that comes then. A callback that prepares a reading does not wait for the one that has called it.
    ///
    /// The answer is `None` if another thread has read events, or the end of the connection, since this thread read, or before
    /// it used the connection at all. What this thread waits for may have come so, and `poll` does not tell of it. Call
    /// [`Backend::dispatch_inner_queue`] then, look at what came, and prepare again. The queues of wayland-client do so.
    #[inline]
    #[must_use]
    pub fn prepare_read(&self) -> Option<ReadEventsGuard> {
        self.connection.prepare_read().then(|| ReadEventsGuard {
            backend: self.clone(),
            is_done: false,
        })
    }

    /// Says that this thread looks at what other threads have read, when [`Backend::prepare_read`] has answered `None`.
    ///
    /// There are no events that another library has queued: the answer is 0.
    #[inline]
    pub fn dispatch_inner_queue(&self) -> Result<usize, WaylandError> {
        self.connection.look();
        Ok(0)
    }

    /// Sets how far the buffers of the connection may grow, in bytes. `None`, as at first, is no limit.
    #[cfg(feature = "libwayland_client_1_23")]
    pub fn set_max_buffer_size(&self, max_buffer_size: Option<usize>) {
        self.connection.set_max_buffer_size(max_buffer_size);
    }
}

/// A reading of events that was prepared.
///
/// Several threads may wait for events of one connection. So that none of them waits for events that another one has
/// read, each prepares its reading first, then polls the socket, and then reads: the last one of them reads for all.
///
/// If the guard is dropped, the reading is given up.
#[derive(Debug)]
pub struct ReadEventsGuard {
    backend: Backend,
    /// Whether this reading counts no more among those that are prepared.
    is_done: bool,
}

impl ReadEventsGuard {
    /// The socket, to be polled.
    #[inline]
    pub fn connection_fd(&self) -> BorrowedFd<'_> {
        self.backend.poll_fd()
    }

    /// Reads events, and hands them to the data of their objects.
    ///
    /// If other threads have prepared a reading, it waits until each of them reads or gives up. One of them reads then,
    /// and the answer is how many events it has handed out; the others answer 0.
    ///
    /// An error that is `WouldBlock` says that there was no event. Within a callback of the same connection nothing can be
    /// read, and the answer is that error, too. Any other error has ended the connection.
    #[inline]
    pub fn read(mut self) -> Result<usize, WaylandError> {
        self.is_done = true;
        reading::read(&self.backend)
    }
}

impl Drop for ReadEventsGuard {
    fn drop(&mut self) {
        if !self.is_done {
            self.backend.connection.give_up_reading();
        }
    }
}

/// The data of the display, whose events the session takes.
struct DisplayData;

impl ObjectData for DisplayData {
    fn event(
        self: Arc<Self>,
        _: &Backend,
        _: Message<ObjectId, OwnedFd>,
    ) -> Option<Arc<dyn ObjectData>> {
        unreachable!("the session takes the events of the display")
    }

    fn destroyed(&self, _: ObjectId) {}
}

/// The data of an object that an event has made, while its callback has not given any.
struct MissingData;

impl ObjectData for MissingData {
    fn event(
        self: Arc<Self>,
        _: &Backend,
        msg: Message<ObjectId, OwnedFd>,
    ) -> Option<Arc<dyn ObjectData>> {
        panic!("Received an event for an object without data: {msg:?}")
    }

    fn destroyed(&self, _: ObjectId) {}

    fn debug(&self, f: &mut fmt::Formatter<'_>) -> fmt::Result {
        f.write_str("MissingData")
    }
}
