//! The server itself: it reads, and calls the handlers.

use std::{
    ffi::CString,
    fmt, io,
    os::fd::{AsFd, BorrowedFd, OwnedFd},
    sync::{
        atomic::{AtomicUsize, Ordering},
        Arc, Mutex, MutexGuard,
    },
};

use rustix::event::epoll;

use super::{
    state::{lock, Bound, Called, Data, State, Unused},
    ClientId, DisconnectReason, Handle, InitError, ObjectId,
};
use crate::{
    library::{Arguments, RawClientId, Ready, Received, Status},
    panics::Panics,
    protocol::{has_forbidden_null, Message},
};

/// How many clients are told of at once that have sent something.
const MOST_READY: usize = 32;

/// How many bytes of a client are read before it is the next one's turn, where all are read. It is more than a socket
/// holds, so all that was sent before is read, and a client that sends without end keeps nobody else waiting.
const MOST_BYTES_IN_TURN: usize = 1 << 18;

/// How often it is each client's turn in one dispatch of all, at most.
const MOST_TURNS: usize = 4;

/// The flags of a client that sends nothing more.
const HAS_ENDED: epoll::EventFlags = epoll::EventFlags::HUP
    .union(epoll::EventFlags::RDHUP)
    .union(epoll::EventFlags::ERR);

/// A server. It reads what clients ask, and calls the program's handlers.
///
/// `D` is what the handlers get besides: the program's state.
pub struct Backend<D: 'static> {
    state: Arc<Mutex<State<D>>>,
    /// What the handlers get.
    handle: Handle,
    poll: Arc<OwnedFd>,
    /// How often the program has done what may end an object.
    ends: Arc<AtomicUsize>,
    /// The clients that are ready.
    ready: Ready,
}

impl<D> fmt::Debug for Backend<D> {
    fn fmt(&self, f: &mut fmt::Formatter<'_>) -> fmt::Result {
        f.debug_struct("Backend").finish_non_exhaustive()
    }
}

impl<D> Backend<D> {
    /// Makes a server without clients and globals.
    ///
    /// # Errors
    ///
    /// [`InitError::Io`]: the system's error, where it gives no means to wait for clients.
    pub fn new() -> Result<Self, InitError> {
        let poll = epoll::create(epoll::CreateFlags::CLOEXEC);
        let poll = Arc::new(poll.map_err(|error| InitError::Io(error.into()))?);
        let ends = Arc::default();
        let state = Arc::new(Mutex::new(State::new(poll.clone(), Arc::clone(&ends))));
        let handle = Handle {
            state: state.clone(),
        };
        #[cfg(feature = "server_system")]
        crate::sys::open_server(&handle);
        Ok(Backend {
            handle,
            state,
            poll,
            ends,
            ready: Ready::with_room_for(MOST_READY),
        })
    }

    /// Sends what waits for the client, or for all clients, as [`Handle::flush`].
    ///
    /// # Errors
    ///
    /// Those of [`Handle::flush`].
    pub fn flush(&mut self, client: Option<ClientId>) -> io::Result<()> {
        self.handle.flush(client)
    }

    /// A handle of the server.
    pub fn handle(&self) -> Handle {
        self.handle.clone()
    }

    /// The descriptor that can be read when there is something to dispatch. Wait for it, and use it for nothing else.
    pub fn poll_fd(&self) -> BorrowedFd<'_> {
        self.poll.as_fd()
    }

    /// Reads what the client sent, and calls the handlers. It does not wait.
    ///
    /// The answer is how many requests were read.
    ///
    /// # Errors
    ///
    /// `WouldBlock`: no request was there. `InvalidInput`: the client is gone. All others: the client was killed, now or
    /// before, and the error says why its connection ended.
    ///
    /// # Panics
    ///
    /// A handler panics, or answers what does not fit the request ([`ObjectData::request`][super::ObjectData::request]).
    pub fn dispatch_single_client(
        &mut self,
        data: &mut D,
        client_id: ClientId,
    ) -> io::Result<usize> {
        let mut panics = Panics::default();
        let state = lock(&self.state);
        let until = Until::Blocked;
        let (state, answer) = self.read(state, data, &client_id, until, &mut panics);
        self.clean(state, data, &mut panics);
        panics.go_on();
        answer.count
    }

    /// Reads what all clients sent, and calls the handlers. It does not wait.
    ///
    /// If a client sends on and on, it ends all the same; then there is something to dispatch again. The answer is how many
    /// requests were read, but for those of clients that were killed.
    ///
    /// # Errors
    ///
    /// The system's error, where it does not tell which clients have sent something.
    ///
    /// # Panics
    ///
    /// As [`Self::dispatch_single_client`].
    pub fn dispatch_all_clients(&mut self, data: &mut D) -> io::Result<usize> {
        let mut dispatched = 0;
        let mut panics = Panics::default();
        let (mut rounds, mut most_rounds) = (0, MOST_TURNS);
        while rounds < most_rounds {
            if let Err(error) = self.ready.wait(self.poll.as_fd()) {
                panics.go_on();
                return Err(error.into());
            }
            if self.ready.count() == 0 {
                break;
            }
            let calls = panics.calls();
            let (state, count, has_more) = self.read_ready(data, &mut panics);
            dispatched += count;
            self.clean(state, data, &mut panics);
            // All that was there was read, and no code of the program has run that could have sent more. What other threads
            // have sent meanwhile is there for the next dispatch.
            if self.ready.count() < MOST_READY && !has_more && panics.calls() == calls {
                break;
            }
            rounds += 1;
            if rounds == MOST_TURNS {
                // Clients that are ready stand in a queue, so after so many rounds each has had its turns.
                let clients = lock(&self.state).core.slots();
                most_rounds *= 1 + clients / MOST_READY;
            }
        }
        panics.go_on();
        Ok(dispatched)
    }

    /// Reads the clients that are ready. The answer is how many requests were read, and whether there may be more; and the
    /// state, which is locked.
    fn read_ready(
        &self,
        data: &mut D,
        panics: &mut Panics,
    ) -> (MutexGuard<'_, State<D>>, usize, bool) {
        let (mut count, mut has_more) = (0, false);
        let mut state = lock(&self.state);
        for (slot, flags) in self.ready.iter() {
            let Some(client) = state.core.client_at(slot as u32) else {
                continue;
            };
            let until = if flags.intersects(HAS_ENDED) {
                Until::Blocked
            } else {
                Until::Short
            };
            let read;
            (state, read) = self.read(state, data, &client, until, panics);
            count += read.count.unwrap_or(0);
            has_more |= read.has_more;
        }
        (state, count, has_more)
    }

    /// Receives from the client, and calls the handlers for what it asks.
    fn read<'a>(
        &'a self,
        mut state: MutexGuard<'a, State<D>>,
        data: &mut D,
        client: &ClientId,
        until: Until,
        panics: &mut Panics,
    ) -> (MutexGuard<'a, State<D>>, WasRead) {
        let (mut bytes, mut count) = (0, 0);
        let (status, received) = loop {
            let kills = state.core.kills();
            let receipt = state.core.receive(client);
            bytes += receipt.bytes;
            count += receipt.messages;
            let expected = (receipt.most, kills);
            let no_request = self.call_all(state, data, client, expected, panics);
            state = no_request.state;
            let status = no_request.status;
            let has_more = match receipt.received {
                Received::Nothing => false,
                Received::All => until == Until::Blocked,
                Received::Some => until == Until::Blocked || bytes < MOST_BYTES_IN_TURN,
            };
            if status != Status::WOULD_BLOCK || !has_more {
                break (status, receipt.received);
            }
        };
        let has_more = received == Received::Some;
        if status == Status::WOULD_BLOCK && count > 0 {
            let count = Ok(count);
            return (state, WasRead { count, has_more });
        }
        let count = Err(state.core.error_of(client, status));
        if status != Status::WOULD_BLOCK {
            state = self.tell_of(state, client, panics);
        }
        (state, WasRead { count, has_more })
    }

    /// Tells the program of a client that was killed. It is not read any more.
    #[cold]
    fn tell_of<'a>(
        &'a self,
        mut state: MutexGuard<'a, State<D>>,
        client: &ClientId,
        panics: &mut Panics,
    ) -> MutexGuard<'a, State<D>> {
        let before = state.core.put();
        state.core.unwatch(client);
        state.core.take_notes();
        let Some(due) = state.core.due_of(client, before) else {
            return state;
        };
        drop(state);
        panics.catch(|| due.tell());
        lock(&self.state)
    }

    /// Calls the handlers for what the client asks, until there is no whole request any more. No lock is held while one
    /// runs. If one panics, its request counts as handled, and the others are called.
    ///
    /// There are at most `most` requests, if no more clients were killed than before. Of one that was killed it has to be
    /// asked why.
    fn call_all<'a>(
        &'a self,
        mut state: MutexGuard<'a, State<D>>,
        data: &mut D,
        client: &ClientId,
        (most, kills): (usize, usize),
        panics: &mut Panics,
    ) -> NoRequest<'a, D> {
        let raw = client.raw();
        let mut count = 0;
        loop {
            if count >= most && state.core.kills() == kills {
                let status = Status::WOULD_BLOCK;
                return NoRequest { state, status };
            }
            let mut is_told = false;
            let called = panics.attempt(|| self.call(state, data, client, &raw, &mut is_told));
            let has_answered = called.is_some();
            let answer = match called {
                Some(Err(no_request)) => return no_request,
                Some(Ok(answer)) => answer,
                None => None,
            };
            panics.count_call();
            count += 1;
            state = lock(&self.state);
            if state.is_plain() && answer.is_none() {
                state.finish_plain(&raw);
                continue;
            }
            let mut unused = Unused::new();
            let misuse = state.finish(&raw, answer, is_told, &mut unused);
            let misuse = misuse.filter(|_| has_answered);
            if misuse.is_some() || !unused.is_empty() {
                drop(state);
                panics.catch(|| drop(unused));
                if let Some(misuse) = misuse {
                    panics.catch(|| panic!("{misuse}"));
                }
                state = lock(&self.state);
            }
        }
    }

    /// Ends a client for a request that has a null text where its interface allows none. The library lets it pass.
    #[cold]
    fn refuse(&self, sender: ObjectId, opcode: u16) {
        const INVALID_METHOD: u32 = 1;
        let name = sender.interface().requests[usize::from(opcode)].name;
        let number = sender.protocol_id();
        let text = format!(
            "invalid arguments for {}#{number}.{name}",
            sender.interface().name
        );
        let text = CString::new(text).expect("names have no null byte");
        self.handle.post_error(sender, INVALID_METHOD, text);
    }

    /// Calls the handler for the next thing that the client asks, and answers what it answers. The state is not locked
    /// then. Where an object ends, and the program is told so, that is noted.
    #[inline]
    fn call<'a>(
        &'a self,
        mut state: MutexGuard<'a, State<D>>,
        data: &mut D,
        client: &ClientId,
        raw: &RawClientId,
        is_told: &mut bool,
    ) -> Result<Option<Data<D>>, NoRequest<'a, D>> {
        let mut args = Arguments::new();
        let object = match state.next_call(raw, &mut args) {
            Ok(Called::Object(object)) => object,
            Ok(Called::Global(bound)) => {
                drop(state);
                return Ok(self.call_global(data, client, *bound));
            }
            Err(status) => return Err(NoRequest { state, status }),
        };
        let (sender_id, opcode) = state.core.sender();
        if usize::from(opcode) >= sender_id.interface().requests.len() {
            // The row has it from another static of that name.
            drop(state);
            self.handle
                .kill_client(client.clone(), DisconnectReason::ConnectionClosed);
            return Ok(None);
        }
        if has_forbidden_null(sender_id.interface().requests, opcode, &args) {
            drop(state);
            self.refuse(sender_id, opcode);
            return Ok(None);
        }
        let ending = state.is_last().then(|| (object.clone(), sender_id.clone()));
        drop(state);
        let ends = self.ends.load(Ordering::Relaxed);
        // The message is large: it is put together where it is handed over.
        let answer = object.request(
            &self.handle,
            data,
            client.clone(),
            Message {
                sender_id,
                opcode,
                args,
            },
        );
        if let Some((object, id)) = ending {
            *is_told = self.is_there(&id, ends);
            if *is_told {
                object.destroyed(&self.handle, data, client.clone(), id);
            }
        }
        Ok(answer)
    }

    /// Whether the handler of a destructor has left its object to the destructor. If it has destroyed it by itself, the
    /// program is told by the next clean-up. `ends` is how often the program had done what may end an object before.
    fn is_there(&self, id: &ObjectId, ends: usize) -> bool {
        self.ends.load(Ordering::Relaxed) == ends
            || lock(&self.state)
                .core
                .server
                .object_info(&id.raw())
                .is_some()
    }

    /// Calls the handler of a global, if that is still there.
    #[cold]
    fn call_global(&self, data: &mut D, client: &ClientId, bound: Bound<D>) -> Option<Data<D>> {
        let Bound {
            handler,
            global,
            object,
        } = bound;
        handler.map(|it| it.bind(&self.handle, data, client.clone(), global, object))
    }

    /// Tells the program of objects that are gone, and takes the clients out that were killed. If another thread tells the
    /// program that a client is gone, this waits for it: the objects of the client come after it.
    #[inline]
    fn clean(&self, state: MutexGuard<'_, State<D>>, data: &mut D, panics: &mut Panics) {
        if !state.is_clean() {
            self.clean_all(state, data, panics);
        }
    }

    #[cold]
    fn clean_all(&self, mut state: MutexGuard<'_, State<D>>, data: &mut D, panics: &mut Panics) {
        let killed = state.clean();
        let count = state.gather_ended();
        let due = state.core.all_due();
        drop(state);
        if let Some(due) = due {
            panics.catch(|| due.tell());
        }
        for _ in 0..count {
            let Some((object, id)) = lock(&self.state).next_ended() else {
                break;
            };
            let client = id.client();
            panics.catch(|| object.destroyed(&self.handle, data, client, id));
        }
        if !killed.is_empty() {
            panics.catch(|| drop(killed));
        }
    }
}

/// A client asks for nothing more now, and why. The state is locked.
struct NoRequest<'a, D: 'static> {
    state: MutexGuard<'a, State<D>>,
    status: Status,
}

/// How a client was read.
struct WasRead {
    /// How many requests were read.
    count: io::Result<usize>,
    /// Whether more of what the client has sent may be there.
    has_more: bool,
}

/// How long a client is read.
#[derive(Clone, Copy, PartialEq, Eq)]
enum Until {
    /// Until its socket has nothing: it may have ended behind what it sent.
    Blocked,
    /// Until its socket gave less than there was room for, and so had no more.
    Short,
}
