//! Reading events, by one thread for all that have prepared it.

use std::io;
use std::mem;
use std::num::NonZeroUsize;
use std::ptr;
use std::sync::{Arc, MutexGuard, PoisonError};

use rustix::io::Errno;

use super::connection::Connection;
use super::session::{Failure, Leftovers, OpenEvent, Session};
use super::{Backend, ObjectData, ObjectId, WaylandError};
use crate::debug;
use crate::library::{Arguments, Received, Status, Turns};
use crate::panics::Panics;
use crate::protocol::{has_forbidden_null, Message};

/// Tells threads apart, as long as they run. It costs less than the standard library's id, for which references are counted.
/// No address is 0, so an `Option` of it takes one word.
#[derive(Clone, Copy, Debug, PartialEq, Eq)]
struct ThreadMark(NonZeroUsize);

impl ThreadMark {
    fn of_this() -> ThreadMark {
        thread_local!(static PLACE: u8 = const { 0 });
        let address = PLACE.with(|place| ptr::from_ref(place) as usize);
        ThreadMark(NonZeroUsize::new(address).expect("a place has an address"))
    }
}

/// Who reads, or is going to.
#[derive(Debug, Default)]
pub(super) struct Readers {
    /// Who has prepared, and whose turn it is. Each prepared reading is a thread of its own there: a thread may have several.
    turns: Turns,
    /// The thread that reads now. The turns do not tell which it is, and a callback of the reading is not to wait for it.
    current: Option<ThreadMark>,
    /// How many threads wait until a turn has ended. To wake nobody is a system call, too.
    waiting: usize,
    /// How many readings have brought something that threads may wait for: events, or the end of the connection. Turns end
    /// without that, too.
    fruitful: usize,
    /// The thread that made the last of them, which knows of all.
    last: Option<ThreadMark>,
    /// What other threads know of them. A thread that is not here knows of none.
    known: Vec<Known>,
}

/// What a thread knows of the readings that were fruitful. The mark of a thread that has ended may be another one's later,
/// which then knows what that knew.
#[derive(Clone, Copy, Debug)]
struct Known {
    thread: ThreadMark,
    /// After so many the thread has looked at its queues.
    seen: usize,
    /// It was told of so many, since no reading could be prepared.
    told: usize,
}

impl Readers {
    fn known_to(&mut self, thread: ThreadMark) -> &mut Known {
        let at = self.known.iter().position(|it| it.thread == thread);
        let at = at.unwrap_or_else(|| {
            self.known.push(Known {
                thread,
                seen: 0,
                told: 0,
            });
            self.known.len() - 1
        });
        &mut self.known[at]
    }

    /// The thread is going to look at its queues after this.
    fn tell(&mut self, thread: ThreadMark) {
        let count = self.fruitful;
        let known = self.known_to(thread);
        (known.seen, known.told) = (count, count);
    }

    /// Whether the thread knows of all fruitful readings. If not, it is told now.
    #[inline]
    fn knows(&mut self, thread: ThreadMark) -> bool {
        self.last == Some(thread) || self.fruitful == 0 || {
            let count = self.fruitful;
            let known = self.known_to(thread);
            known.told = count;
            known.seen == count
        }
    }

    /// The thread has made a fruitful reading.
    #[inline]
    fn count(&mut self, thread: ThreadMark) {
        if self.last != Some(thread) {
            if let Some(former) = self.last.replace(thread) {
                self.tell(former);
            }
        }
        self.fruitful = self.fruitful.wrapping_add(1);
    }
}

impl Connection {
    /// Prepares a reading. While another thread reads, this waits until it has ended: then what it read has been handed
    /// out. A callback of the reading itself does not wait.
    ///
    /// The answer is false, and nothing is prepared, if another thread has read something of which this one does not know: it
    /// may wait for that, and `poll` does not tell of it any more. The thread knows of it when it was told so and has looked
    /// after that. A look that it took by itself does not count: what it has looked for before may have come in between.
    pub(super) fn prepare_read(&self) -> bool {
        let thread = ThreadMark::of_this();
        let mut session = self.lock();
        while session.readers.current.is_some_and(|it| it != thread) {
            session = self.wait(session);
        }
        let readers = &mut session.readers;
        let is_told = readers.current.is_none() && !readers.knows(thread);
        readers.turns.prepare(is_told)
    }

    /// This thread looks at its queues.
    pub(super) fn look(&self) {
        let known = &mut self.lock().readers.known;
        let thread = ThreadMark::of_this();
        if let Some(known) = known.iter_mut().find(|it| it.thread == thread) {
            known.seen = known.told;
        }
    }

    /// Waits until a reading has ended, or all that were prepared were given up.
    #[cold]
    fn wait<'a>(&self, mut session: MutexGuard<'a, Session>) -> MutexGuard<'a, Session> {
        session.readers.waiting += 1;
        let mut session = self
            .read
            .wait(session)
            .unwrap_or_else(PoisonError::into_inner);
        session.readers.waiting -= 1;
        session
    }

    /// Gives a prepared reading up. If it was the last one, those that wait for a reader go on.
    pub(super) fn give_up_reading(&self) {
        let readers = &mut self.lock().readers;
        if readers.turns.cancel() {
            self.wake(readers);
        }
    }

    /// Wakes those that wait: a turn has ended.
    fn wake(&self, readers: &Readers) {
        if readers.waiting > 0 {
            self.read.notify_all();
        }
    }

    /// Begins a prepared reading. If this thread is the one that reads, the answer is the session, which is locked; otherwise
    /// another one has read.
    fn begin_reading(&self) -> Result<Option<MutexGuard<'_, Session>>, WaylandError> {
        let thread = ThreadMark::of_this();
        let mut session = self.lock();
        if session.readers.current == Some(thread) {
            // A callback of this thread's own reading.
            session.readers.turns.cancel();
            return Err(io::Error::from(Errno::AGAIN).into());
        }
        let Some(ended) = session.readers.turns.begin() else {
            session.readers.current = Some(thread);
            return Ok(Some(session));
        };
        while session.readers.turns.ended() == ended {
            session = self.wait(session);
        }
        session.readers.tell(thread);
        Ok(None)
    }
}

/// The reading of this thread. It ends at the latest when this is dropped, also by a panic.
struct Reading<'a> {
    connection: &'a Connection,
    /// Whether it has brought something that threads may wait for.
    is_fruitful: bool,
    is_over: bool,
}

impl Reading<'_> {
    fn end(&mut self, session: &mut Session) {
        let readers = &mut session.readers;
        if self.is_fruitful {
            readers.count(ThreadMark::of_this());
        }
        readers.current = None;
        readers.turns.end();
        self.connection.wake(readers);
        self.is_over = true;
    }
}

impl Drop for Reading<'_> {
    fn drop(&mut self) {
        if !self.is_over {
            self.end(&mut self.connection.lock());
        }
    }
}

/// Reads, or waits until another thread has read.
pub(super) fn read(backend: &Backend) -> Result<usize, WaylandError> {
    let connection = &*backend.connection;
    if let Some(session) = connection.begin_reading()? {
        let mut reading = Reading {
            connection,
            is_fruitful: false,
            is_over: false,
        };
        return dispatch(backend, session, &mut reading);
    }
    match connection.last_error() {
        Some(error) => Err(error),
        None => Ok(0),
    }
}

/// Hands events out until the socket has no more. The answer is how many. If a callback panics, the panic goes on when all
/// events were handed out. The reading ends when all that comes of it was done.
fn dispatch<'a>(
    backend: &'a Backend,
    mut session: MutexGuard<'a, Session>,
    reading: &mut Reading<'_>,
) -> Result<usize, WaylandError> {
    let connection = &*backend.connection;
    let mut panics = Panics::default();
    let mut leftovers = Leftovers::default();
    let mut dispatched = 0;
    let mut dangers = session.library.dangers();
    let mut receipt = session.receive(connection.socket());
    let result = loop {
        // All were handed out that there can be, and no callback has done what may have given the session an error.
        if receipt.most == 0 && session.library.dangers() == dangers {
            break Ok(dispatched);
        }
        let answer = match panics.attempt(|| hand_out(backend, session)) {
            Some(Ok(answer)) => Some(answer),
            None => None,
            Some(Err(no_event)) => {
                session = no_event.session;
                match no_event.status {
                    // If the socket had no more, it may have by now. Then poll says so.
                    Status::WOULD_BLOCK if receipt.received == Received::Some => {
                        dangers = session.library.dangers();
                        receipt = session.receive(connection.socket());
                        continue;
                    }
                    Status::FAILED => {
                        reading.is_fruitful = true;
                        break Err(session.failed());
                    }
                    _ if dispatched == 0 => break Err(Failure::from(Errno::AGAIN)),
                    _ => break Ok(dispatched),
                }
            }
        };
        reading.is_fruitful = true;
        session = finish(connection, answer, &mut leftovers, &mut panics);
        dispatched += 1;
        receipt.most = receipt.most.saturating_sub(1);
    };
    session.library.close_dropped();
    session.take_unused(&mut leftovers);
    let result = match result {
        Ok(count) if leftovers.is_empty() => {
            reading.end(&mut session);
            drop(session);
            Some(Ok(count))
        }
        result => {
            drop(session);
            panics.catch(|| leftovers.settle());
            match result {
                Ok(count) => Some(Ok(count)),
                Err(failure) => panics.catch(|| Err(failure.logged())),
            }
        }
    };
    panics.go_on();
    result.expect("no callback has panicked")
}

/// What a callback answers to an event.
type Answer = Option<Arc<dyn ObjectData>>;

/// There is no event, and why. The session is still locked.
struct NoEvent<'a> {
    session: MutexGuard<'a, Session>,
    status: Status,
}

/// Hands the next event to its object's data, and answers what these answer. No lock is held then.
#[inline]
fn hand_out<'a>(
    backend: &'a Backend,
    mut session: MutexGuard<'a, Session>,
) -> Result<Answer, NoEvent<'a>> {
    let mut args = Arguments::new();
    let OpenEvent {
        data,
        sender_id,
        opcode,
    } = match session.next_event(&mut args) {
        Ok(event) => event,
        Err(status) => return Err(NoEvent { session, status }),
    };
    let events = sender_id.interface().events;
    if usize::from(opcode) >= events.len() || has_forbidden_null(events, opcode, &args) {
        let status = session.refuse_event();
        return Err(NoEvent { session, status });
    }
    drop(session);
    backend.connection.print_event(&sender_id, opcode, &args);
    // The message is large: it is put together where it is handed over.
    Ok(data.event(
        backend,
        Message {
            sender_id,
            opcode,
            args,
        },
    ))
}

/// Finishes the event that was handed out, by what its callback answered; there is no answer if that panicked. The
/// session is locked for the next event.
#[inline]
fn finish<'a>(
    connection: &'a Connection,
    answer: Option<Answer>,
    leftovers: &mut Leftovers,
    panics: &mut Panics,
) -> MutexGuard<'a, Session> {
    let has_answered = answer.is_some();
    let mut session = connection.lock();
    let misuse = session.finish_event(answer.flatten(), leftovers);
    if leftovers.is_empty() && misuse.is_none() {
        return session;
    }
    drop(session);
    panics.catch(|| mem::take(leftovers).settle());
    if let Some(misuse) = misuse.filter(|_| has_answered) {
        panics.catch(|| panic!("{misuse}"));
    }
    connection.lock()
}

impl Connection {
    #[inline]
    fn print_event(&self, sender: &ObjectId, opcode: u16, args: &Arguments<ObjectId>) {
        if self.prints {
            debug::print_dispatched(sender, name_of(sender, opcode), debug::List(args));
        }
        crate::log_debug!(
            "Dispatching {sender}.{} ({})",
            name_of(sender, opcode),
            debug::List(args)
        );
    }
}

/// The name of an event.
fn name_of(sender: &ObjectId, opcode: u16) -> &'static str {
    let events = sender.interface().events;
    events
        .get(usize::from(opcode))
        .map_or("<unknown>", |event| event.name)
}
