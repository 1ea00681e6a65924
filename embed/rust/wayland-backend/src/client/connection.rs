//! A connection: a socket, a session behind a lock, and who reads from it.

use std::fmt;
use std::os::unix::io::{AsFd, BorrowedFd, RawFd};
use std::os::unix::net::UnixStream;
use std::sync::{Arc, Condvar, Mutex, MutexGuard, PoisonError};

use rustix::io::Errno;

use super::misuse;
use super::session::{Failure, Leftovers, Refused, Session};
use super::{InvalidId, ObjectData, ObjectId, WaylandError};
use crate::debug;
use crate::library::{Sent, Status};
use crate::protocol::{Argument, Interface, Message, ObjectInfo};

/// A connection to a server.
pub(super) struct Connection {
    socket: UnixStream,
    session: Mutex<Session>,
    /// The id of the display, which never changes.
    display: ObjectId,
    /// A reading has ended, or all that were prepared were given up.
    pub(super) read: Condvar,
    /// Whether messages are printed.
    pub(super) prints: bool,
}

impl fmt::Debug for Connection {
    fn fmt(&self, f: &mut fmt::Formatter<'_>) -> fmt::Result {
        f.debug_struct("Connection")
            .field("socket", &self.socket)
            .finish_non_exhaustive()
    }
}

impl Connection {
    pub(super) fn new(socket: UnixStream) -> Connection {
        let prints = debug::is_on_for_clients();
        let mut session = Session::new(prints);
        Connection {
            socket,
            display: session.display(),
            session: Mutex::new(session),
            read: Condvar::new(),
            prints,
        }
    }

    pub(super) fn socket(&self) -> BorrowedFd<'_> {
        self.socket.as_fd()
    }

    /// The session. No code of the program runs while it is locked. If a bug of this crate panics then, the session is as
    /// good as before: each call of the library is whole.
    pub(super) fn lock(&self) -> MutexGuard<'_, Session> {
        self.session.lock().unwrap_or_else(PoisonError::into_inner)
    }

    pub(super) fn display(&self) -> ObjectId {
        self.display.clone()
    }

    pub(super) fn last_error(&self) -> Option<WaylandError> {
        self.lock().error()
    }

    /// The error says that the id is another connection's. Without marks nobody can tell.
    #[inline]
    fn check(&self, id: &ObjectId) -> Result<(), InvalidId> {
        match id.mark() == self.display.mark() {
            true => Ok(()),
            false => Err(InvalidId),
        }
    }

    /// The same for the sender of a request, and for the objects among its arguments that are not null.
    #[inline]
    fn check_all(&self, message: &Message<ObjectId, RawFd>) -> Result<(), InvalidId> {
        self.check(&message.sender_id)?;
        message.args.iter().try_for_each(|argument| match argument {
            Argument::Object(id) if !id.is_null() => self.check(id),
            _ => Ok(()),
        })
    }

    pub(super) fn info(&self, id: &ObjectId) -> Result<ObjectInfo, InvalidId> {
        self.check(id)?;
        self.lock().info(id).ok_or(InvalidId)
    }

    pub(super) fn get_data(&self, id: &ObjectId) -> Result<Arc<dyn ObjectData>, InvalidId> {
        self.check(id)?;
        self.lock().get_data(id).ok_or(InvalidId)
    }

    pub(super) fn set_data(
        &self,
        id: &ObjectId,
        data: Arc<dyn ObjectData>,
    ) -> Result<(), InvalidId> {
        self.check(id)?;
        // The data that are not needed any more are dropped without the lock.
        let replaced = self.lock().set_data(id, data);
        replaced.map(drop).map_err(|_| InvalidId)
    }

    pub(super) fn destroy_object(&self, id: &ObjectId) -> Result<(), InvalidId> {
        self.check(id)?;
        let mut leftovers = Leftovers::default();
        let mut session = self.lock();
        let raw = id.raw();
        if session.library.destroy_object(&raw).is_err() {
            return Err(InvalidId);
        }
        session.take_notes(&raw, &mut leftovers);
        drop(session);
        leftovers.settle();
        Ok(())
    }

    #[inline]
    pub(super) fn send_request(
        &self,
        message: &Message<ObjectId, RawFd>,
        data: Option<Arc<dyn ObjectData>>,
        child_spec: Option<(&'static Interface, u32)>,
    ) -> Result<ObjectId, InvalidId> {
        if self.check_all(message).is_err() {
            return self.refuse(Refused::InvalidId, message, None);
        }
        if data.is_some() || child_spec.is_some() || is_destructor(message) {
            return self.send_and_settle(message, data, child_spec);
        }
        // It makes no object, or is refused. So it leaves nothing to be done.
        let sent = self.lock().send_plain(message);
        match sent {
            Ok(()) => {
                let created = ObjectId::null();
                self.print_sent(message, &created);
                Ok(created)
            }
            Err(status) => self.refuse(Refused::from(status), message, None),
        }
    }

    /// Sends a request that may make or end an object.
    fn send_and_settle(
        &self,
        message: &Message<ObjectId, RawFd>,
        data: Option<Arc<dyn ObjectData>>,
        child_spec: Option<(&'static Interface, u32)>,
    ) -> Result<ObjectId, InvalidId> {
        let mut leftovers = Leftovers::default();
        let sent = self
            .lock()
            .send_request(message, data, child_spec, &mut leftovers);
        match sent {
            Ok(created) => {
                self.print_sent(message, &created);
                leftovers.settle();
                Ok(created)
            }
            Err(refused) => {
                leftovers.settle();
                self.refuse(refused, message, child_spec)
            }
        }
    }

    #[cold]
    fn refuse(
        &self,
        why: Refused,
        message: &Message<ObjectId, RawFd>,
        child_spec: Option<(&'static Interface, u32)>,
    ) -> Result<ObjectId, InvalidId> {
        match why {
            Refused::InvalidId => {
                if self.prints {
                    let arguments = debug::List(&message.args);
                    debug::print_discarded(&message.sender_id, name_of(message), arguments);
                }
                Err(InvalidId)
            }
            Refused::Misuse(status) => {
                let info = self.info(&message.sender_id).ok();
                panic!("{}", misuse::text(status, message, child_spec, info))
            }
            Refused::BadInterface(error) => panic!("{error}"),
        }
    }

    #[inline]
    fn print_sent(&self, message: &Message<ObjectId, RawFd>, created: &ObjectId) {
        if self.prints {
            let arguments = debug::WithNewId(&message.args, created);
            debug::print_sent(&message.sender_id, name_of(message), arguments);
        }
        crate::log_debug!(
            "Sending {}.{} ({})",
            message.sender_id,
            name_of(message),
            debug::WithNewId(&message.args, created)
        );
    }

    pub(super) fn flush(&self) -> Result<(), WaylandError> {
        // The session is free again when the error is logged.
        let flushed = self.flush_locked(&mut self.lock());
        flushed.map_err(Failure::logged)
    }

    fn flush_locked(&self, session: &mut Session) -> Result<(), Failure> {
        loop {
            // There may be no room for all of it until some was sent.
            let is_handed_over = match session.flush() {
                Ok(()) => true,
                Err(Status::WOULD_BLOCK) => false,
                Err(_) => return Err(session.failed()),
            };
            match session.library.send(self.socket()) {
                Ok(Sent::All | Sent::Nothing) if is_handed_over => return Ok(()),
                // What waits has no room, and nothing leaves to make some.
                Ok(Sent::Nothing) => return Err(Errno::AGAIN.into()),
                Ok(_) => {}
                Err(Errno::AGAIN) => return Err(Errno::AGAIN.into()),
                Err(error) => session.send_failed(error),
            }
        }
    }

    #[cfg(feature = "libwayland_client_1_23")]
    pub(super) fn set_max_buffer_size(&self, limit: Option<usize>) {
        self.lock().library.set_max_buffer_size(limit);
    }
}

#[cfg(feature = "client_system")]
impl Drop for Connection {
    fn drop(&mut self) {
        crate::sys::close_connection(self.display.mark());
    }
}

/// Whether the request ends its sender.
fn is_destructor(message: &Message<ObjectId, RawFd>) -> bool {
    let requests = message.sender_id.interface.requests;
    requests
        .get(usize::from(message.opcode))
        .is_some_and(|request| request.is_destructor)
}

/// The name of a request.
fn name_of(message: &Message<ObjectId, RawFd>) -> &'static str {
    let requests = message.sender_id.interface.requests;
    requests
        .get(usize::from(message.opcode))
        .map_or("<unknown>", |request| request.name)
}
