//! What of a server's state has nothing to do with the program's type: the session, its sockets and its table.

use std::{
    collections::{HashMap, VecDeque},
    fmt, io, mem,
    os::{
        fd::{AsFd, BorrowedFd, OwnedFd, RawFd},
        unix::net::UnixStream,
    },
    sync::{
        atomic::{AtomicUsize, Ordering},
        Arc,
    },
};

use numbyroga_sys as sys;
use rustix::{event::epoll, io::Errno, net::sockopt::get_socket_peercred, process::Pid};
use smallvec::SmallVec;

use super::{
    news::{News, Told},
    ClientData, ClientId, Credentials, DisconnectReason, GlobalId, InvalidId, Mark, ObjectId,
};
use crate::{
    debug,
    library::{
        Action, Arguments, ClientError, Inbox, Note, Outgoing, RawArgument, RawClientId,
        RawGlobalId, RawObjectId, Receipt, Sent, Server, Status,
    },
    protocol::{same_interface, Argument, Interface, Message, ProtocolError, ANONYMOUS_INTERFACE},
    socket,
    table::{BadInterface, Table},
};

/// So many bytes find room for each client, whatever its limit is.
const ALWAYS_FITS: usize = 4096;

/// How many descriptors of a client may wait for the requests that they belong to. A client that sends more with nothing
/// that takes them is killed before this process can open no more.
const MOST_UNREAD: usize = 512;

/// A client's socket, and what the program keeps for the client.
pub(super) struct Connection {
    serial: u64,
    stream: UnixStream,
    pub(super) data: Arc<dyn ClientData>,
    inbox: Inbox,
    /// How many of its descriptors have been handed out with requests.
    handed_out: usize,
    /// Whether the server waits for what the client sends.
    is_watched: bool,
    /// Whether something may wait for the client.
    is_listed: bool,
    /// Whether its socket took nothing when something was sent last.
    is_full: bool,
    /// How many bytes of events, at most, have been sent since nothing waited.
    queued: usize,
    /// Why the program kills the client, while it does.
    reason: Option<DisconnectReason>,
}

impl Connection {
    /// Who is at the other end.
    pub(super) fn credentials(&self) -> io::Result<Credentials> {
        let peer = get_socket_peercred(&self.stream)?;
        let pid = Pid::as_raw(Some(peer.pid));
        Ok(Credentials {
            pid,
            uid: peer.uid.as_raw(),
            gid: peer.gid.as_raw(),
        })
    }

    fn unwatch(&mut self, poll: &OwnedFd) {
        if mem::take(&mut self.is_watched) {
            let _ = epoll::delete(poll, &self.stream);
        }
    }
}

/// News that the program is to be told before a call returns, when the state is not locked any more.
pub(super) struct Due {
    news: Arc<News>,
    until: u64,
}

impl Due {
    pub(super) fn tell(self) {
        self.news.tell(self.until);
    }
}

/// An object with data that is gone. The program is told of it by a dispatch.
pub(super) struct Ended {
    pub(super) object: ObjectId,
    pub(super) data: u64,
}

/// The statics of interfaces, by the numbers that the library has for them.
pub(super) struct Names {
    table: Table,
    /// What ids of objects have of the server.
    pub(super) mark: Mark,
    /// The interfaces of objects that were made with another static than the first of its name, by the objects' data.
    others: HashMap<u64, &'static Interface>,
}

impl Names {
    /// The interface of an object with these data.
    #[inline]
    fn interface(&self, object: &RawObjectId, data: u64) -> &'static Interface {
        if !self.others.is_empty() {
            if let Some(interface) = self.others.get(&data) {
                return interface;
            }
        }
        self.table.interface(object.interface)
    }

    #[inline]
    pub(super) fn id(&self, object: &RawObjectId, data: u64) -> ObjectId {
        ObjectId::of(object, self.interface(object, data), self.mark)
    }

    /// The id of an object among the arguments of a request.
    #[inline]
    fn argument(&self, client: &RawClientId, action: &Action, argument: &RawArgument) -> ObjectId {
        let object = &argument.object;
        if object.number == 0 {
            let null = RawObjectId {
                client: *client,
                ..RawObjectId::default()
            };
            return ObjectId::of(&null, &ANONYMOUS_INTERFACE, self.mark);
        }
        if object.number == action.created.number {
            return self.created_id(action);
        }
        self.id(object, argument.data)
    }

    /// The object that a request made. Its static is the one that the sender's names.
    fn created_id(&self, action: &Action) -> ObjectId {
        let known = self.table.interface(action.created.interface);
        let sender = self.interface(&action.sender, action.data);
        let request = sender.requests.get(action.opcode as usize);
        let named = request.and_then(|request| request.child_interface);
        let interface = named.filter(|named| same_interface(named, known));
        ObjectId::of(&action.created, interface.unwrap_or(known), self.mark)
    }

    /// Notes which static an object was made with, if it is not the first of its name.
    #[inline]
    pub(super) fn keep(&mut self, interface: &'static Interface, row: u32, data: u64) {
        if !std::ptr::eq(self.table.interface(row), interface) {
            self.others.insert(data, interface);
        }
    }

    pub(super) fn forget(&mut self, data: u64) {
        if !self.others.is_empty() {
            self.others.remove(&data);
        }
    }
}

pub(super) struct Core {
    pub(super) server: Server,
    pub(super) names: Names,
    /// By slot.
    connections: Vec<Option<Connection>>,
    /// The slots of clients for which something may wait.
    listed: VecDeque<u32>,
    pub(super) news: Arc<News>,
    /// How many news have been put so far.
    put: u64,
    /// So many of them are known to have been told.
    told: u64,
    pub(super) ended: VecDeque<Ended>,
    outgoing: Outgoing,
    /// What a client has asked last.
    pub(super) action: Action,
    poll: Arc<OwnedFd>,
    /// How often the program has done what may end an object. It is read without the state's lock.
    ends: Arc<AtomicUsize>,
    is_logging: bool,
}

impl Core {
    pub(super) fn new(poll: Arc<OwnedFd>, ends: Arc<AtomicUsize>) -> Core {
        Core {
            server: Server::new(),
            names: Names {
                table: Table::new(),
                mark: Mark::next(),
                others: HashMap::new(),
            },
            connections: Vec::new(),
            listed: VecDeque::new(),
            news: Arc::default(),
            put: 0,
            told: 0,
            ended: VecDeque::new(),
            outgoing: Outgoing::default(),
            action: Action::default(),
            poll,
            ends,
            is_logging: debug::is_on_for_servers(),
        }
    }

    /// The id of an object that was made with this static.
    pub(super) fn id(&self, raw: &RawObjectId, interface: &'static Interface) -> ObjectId {
        ObjectId::of(raw, interface, self.names.mark)
    }

    /// The number that the library has for an interface. It learns what it does not know yet.
    pub(super) fn row(&mut self, interface: &'static Interface) -> Result<u32, BadInterface> {
        let Core { server, names, .. } = self;
        names
            .table
            .row(interface, |rows| server.extend_interfaces(rows))
    }

    // ---- What happened

    /// How many news have been put so far.
    pub(super) fn put(&self) -> u64 {
        self.put
    }

    /// What is to be told before a call returns: what it has put, where `before` had been put before.
    #[inline]
    pub(super) fn due(&self, before: u64) -> Option<Due> {
        (self.put != before).then(|| self.due_until(self.put))
    }

    /// The same, and what has to be told until the program knows all of the client.
    pub(super) fn due_of(&self, client: &ClientId, before: u64) -> Option<Due> {
        let until = match self.put == before {
            true => self.news.until_known(client),
            false => self.put,
        };
        (until > 0).then(|| self.due_until(until))
    }

    /// All that was put and has not been told.
    pub(super) fn all_due(&mut self) -> Option<Due> {
        if self.told < self.put && self.news.are_told(self.put) {
            self.told = self.put;
        }
        (self.told < self.put).then(|| self.due_until(self.put))
    }

    fn due_until(&self, until: u64) -> Due {
        Due {
            news: self.news.clone(),
            until,
        }
    }

    /// Takes the session's notes. The program is to be told of them when no lock is held.
    #[inline]
    pub(super) fn take_notes(&mut self) {
        if self.server.may_have_notes() {
            self.take_all_notes();
        }
    }

    fn take_all_notes(&mut self) {
        while let Some(note) = self.server.next_note() {
            match note {
                // Who has inserted it tells its data.
                Note::Inserted(_) => {}
                Note::Killed { client, error } => {
                    let id = ClientId::of(&client);
                    if let (true, Some(error)) = (self.is_logging, &error) {
                        log_error(&client, error);
                    }
                    let Some(connection) = self.connection(&id) else {
                        continue;
                    };
                    let reason = match (connection.reason.take(), error) {
                        (Some(reason), _) => reason,
                        (None, None) => DisconnectReason::ConnectionClosed,
                        (None, Some(error)) => DisconnectReason::ProtocolError(ProtocolError {
                            code: error.code,
                            object_id: error.object,
                            object_interface: error.interface,
                            message: error.message,
                        }),
                    };
                    let data = connection.data.clone();
                    self.news.put(Told {
                        data,
                        client: id,
                        reason,
                    });
                    self.put += 1;
                }
                Note::Destroyed { object, data } => {
                    let object = self.names.id(&object, data);
                    self.names.forget(data);
                    self.ended.push_back(Ended { object, data });
                }
            }
        }
    }

    /// How many clients were killed so far.
    #[inline]
    pub(super) fn kills(&mut self) -> usize {
        self.take_notes();
        self.server.kills()
    }

    // ---- Clients

    pub(super) fn connection(&mut self, id: &ClientId) -> Option<&mut Connection> {
        let connection = self.connections.get_mut(id.slot as usize)?.as_mut()?;
        (connection.serial == id.serial).then_some(connection)
    }

    /// The client that has this slot now.
    pub(super) fn client_at(&self, slot: u32) -> Option<ClientId> {
        let connection = self.connections.get(slot as usize)?.as_ref()?;
        Some(ClientId {
            slot,
            serial: connection.serial,
        })
    }

    /// How many clients there are, at most.
    pub(super) fn slots(&self) -> usize {
        self.connections.len()
    }

    /// The clients that are there, with their data.
    pub(super) fn clients(&self) -> Vec<(ClientId, Arc<dyn ClientData>)> {
        let slots = 0..self.connections.len() as u32;
        let data = self
            .connections
            .iter()
            .flatten()
            .map(|connection| connection.data.clone());
        slots
            .filter_map(|slot| self.client_at(slot))
            .zip(data)
            .collect()
    }

    /// The id of the client that comes next.
    pub(super) fn next_client(&mut self) -> Result<ClientId, Status> {
        self.server.next_client_id().map(|raw| ClientId::of(&raw))
    }

    /// Inserts a client, which does not see these globals. It is not read before [`Core::watch`].
    pub(super) fn insert(
        &mut self,
        stream: UnixStream,
        data: Arc<dyn ClientData>,
        hidden: &[RawGlobalId],
    ) -> Result<ClientId, Status> {
        let raw = self.server.insert_client(0, hidden)?;
        let slot = raw.slot as usize;
        if self.connections.len() <= slot {
            self.connections.resize_with(slot + 1, || None);
        }
        self.connections[slot] = Some(Connection {
            serial: raw.serial,
            stream,
            data,
            inbox: Inbox::default(),
            handed_out: 0,
            is_watched: false,
            is_listed: false,
            is_full: false,
            queued: 0,
            reason: None,
        });
        self.take_notes();
        Ok(ClientId::of(&raw))
    }

    /// Waits from now on for what the client sends. It is killed if its socket cannot be waited for.
    pub(super) fn watch(&mut self, id: &ClientId) -> io::Result<()> {
        let poll = self.poll.clone();
        let Some(connection) = self.connection(id) else {
            return Ok(()); // it was killed meanwhile
        };
        let slot = epoll::EventData::new_u64(id.slot.into());
        let flags = epoll::EventFlags::IN | epoll::EventFlags::RDHUP;
        let watched = epoll::add(&*poll, &connection.stream, slot, flags);
        connection.is_watched = watched.is_ok();
        if watched.is_err() {
            self.kill(id, DisconnectReason::ConnectionClosed);
        }
        Ok(watched?)
    }

    pub(super) fn kill(&mut self, id: &ClientId, reason: DisconnectReason) {
        let Some(connection) = self.connection(id) else {
            return;
        };
        connection.reason = Some(reason);
        self.count_end();
        self.server.kill_client(&id.raw());
        self.take_notes();
        if let Some(connection) = self.connection(id) {
            connection.reason = None; // without a note it was killed before
        }
    }

    /// Waits no more for what the client sends.
    pub(super) fn unwatch(&mut self, id: &ClientId) {
        let poll = self.poll.clone();
        if let Some(connection) = self.connection(id) {
            connection.unwatch(&poll);
        }
    }

    /// Whether there is nothing to be taken out, to be told or to be closed.
    #[inline]
    pub(super) fn is_clean(&self) -> bool {
        self.server.is_clean() && self.ended.is_empty() && self.told == self.put
    }

    /// Takes the clients out that were killed. What is answered is to be dropped after the program was told of them: then
    /// their sockets are closed.
    pub(super) fn take_killed(&mut self) -> Vec<Connection> {
        let mut taken = Vec::new();
        self.take_notes(); // while the clients are still there
        if self.server.cleanup() {
            self.take_gone(&mut taken);
            self.take_notes();
        }
        self.server.close_dropped();
        taken
    }

    fn take_gone(&mut self, taken: &mut Vec<Connection>) {
        let Core {
            server,
            connections,
            poll,
            ..
        } = self;
        while let Some(gone) = server.next_gone() {
            let Some(place) = connections.get_mut(gone.client.slot as usize) else {
                continue;
            };
            let Some(mut connection) = place.take() else {
                continue;
            };
            if !gone.bytes.is_empty() {
                let descriptors: SmallVec<[BorrowedFd<'_>; 4]> = gone
                    .descriptors
                    .iter()
                    .map(|descriptor| descriptor.as_fd())
                    .collect();
                // What the socket does not take is lost with the connection.
                let _ = socket::send_with(connection.stream.as_fd(), gone.bytes, &descriptors);
            }
            connection.unwatch(poll);
            taken.push(connection);
        }
    }

    // ---- Objects

    /// The objects of a client, by ascending number.
    pub(super) fn objects(&mut self, client: &ClientId) -> Option<Vec<ObjectId>> {
        let objects = self.server.objects(&client.raw()).ok()?;
        Some(objects.iter().map(|object| self.known_id(object)).collect())
    }

    pub(super) fn object_for_protocol_id(
        &mut self,
        client: &ClientId,
        interface: &'static Interface,
        number: u32,
    ) -> Option<ObjectId> {
        let row = self.row(interface).ok()?;
        let object = self
            .server
            .object_for_protocol_id(&client.raw(), row, number)?;
        Some(self.known_id(&object))
    }

    /// The id of an object that the library named without its data.
    fn known_id(&mut self, object: &RawObjectId) -> ObjectId {
        let is_sure = self.names.others.is_empty();
        let data = if is_sure {
            None
        } else {
            self.server.object_data(object)
        };
        self.names.id(object, data.unwrap_or(0))
    }

    /// The program does what may end an object. Nobody else counts while the state is locked.
    fn count_end(&self) {
        let ends = self.ends.load(Ordering::Relaxed);
        self.ends.store(ends.wrapping_add(1), Ordering::Relaxed);
    }

    pub(super) fn destroy_object(&mut self, id: &ObjectId) -> Result<(), InvalidId> {
        self.count_end();
        let answer = self.server.destroy_object(&id.raw());
        self.take_notes();
        answer.map_err(|_| InvalidId)
    }

    // ---- Globals

    /// The id of the global that comes next.
    pub(super) fn next_global(&mut self) -> Result<GlobalId, Status> {
        self.server.next_global_id().map(|raw| GlobalId::of(&raw))
    }

    pub(super) fn disable_global(&mut self, id: &GlobalId) {
        self.server.disable_global(&id.raw());
        self.take_notes();
    }

    pub(super) fn remove_global(&mut self, id: &GlobalId) {
        self.server.remove_global(&id.raw());
        self.take_notes();
    }

    // ---- Requests

    /// Receives once from the client's socket.
    pub(super) fn receive(&mut self, id: &ClientId) -> Receipt {
        let Core {
            server,
            connections,
            ..
        } = self;
        let Some(Some(connection)) = connections.get_mut(id.slot as usize) else {
            return Receipt::NOTHING;
        };
        if connection.serial != id.serial {
            return Receipt::NOTHING;
        }
        let (raw, socket) = (id.raw(), connection.stream.as_fd());
        let receipt = server.receive(&raw, socket, &mut connection.inbox);
        if connection.inbox.came() - connection.handed_out > MOST_UNREAD {
            server.kill_client(&raw);
        }
        receipt
    }

    /// The next thing that the client asks: it is in `self.action`. The arguments of a request are appended to `args`.
    #[inline]
    pub(super) fn next_action(
        &mut self,
        client: &RawClientId,
        args: &mut Arguments<ObjectId>,
    ) -> Result<(), Status> {
        let Core {
            server,
            names,
            action,
            ..
        } = self;
        let descriptors = server.next_action(client, action, args, |action, argument| {
            names.argument(client, action, argument)
        })?;
        if descriptors > 0 {
            self.hand_out(client, descriptors);
        }
        if self.is_logging {
            self.log_request(args);
        }
        Ok(())
    }

    /// The sender of the request that is in `self.action`, and its opcode.
    #[inline]
    pub(super) fn sender(&self) -> (ObjectId, u16) {
        let action = &self.action;
        let id = self.names.id(&action.sender, action.data);
        (id, action.opcode as u16)
    }

    /// So many descriptors are not unread any more.
    #[cold]
    fn hand_out(&mut self, client: &RawClientId, count: usize) {
        if let Some(connection) = self.connection(&ClientId::of(client)) {
            connection.handed_out += count;
        }
    }

    /// The error of a dispatch that ended by this status.
    pub(super) fn error_of(&mut self, id: &ClientId, status: Status) -> io::Error {
        let number = match status {
            Status::INVALID_ID => {
                return io::Error::new(io::ErrorKind::InvalidInput, "Invalid client ID")
            }
            Status::WOULD_BLOCK => Errno::AGAIN,
            Status::PROTOCOL_ERROR | Status::TOO_BIG => Errno::PROTO,
            Status::IO_ERROR => self
                .connection(id)
                .and_then(|it| it.inbox.fault())
                .unwrap_or(Errno::PIPE),
            _ => Errno::PIPE,
        };
        number.into()
    }

    // ---- Events

    /// What an event comes to that the sender's static lacks. The row of another static of that name may have it.
    #[cold]
    fn unknown_event(&mut self, sender: &ObjectId) -> Status {
        match self.server.object_info(&sender.raw()) {
            Some(_) => Status::UNKNOWN_OPCODE,
            None => Status::INVALID_ID,
        }
    }

    /// Sends an event. The client is killed if a descriptor among the arguments cannot be duplicated.
    pub(super) fn send_event(&mut self, message: &Message<ObjectId, RawFd>) -> Result<(), Status> {
        let Message {
            sender_id,
            opcode,
            args,
        } = message;
        if usize::from(*opcode) >= sender_id.interface.events.len() {
            return Err(self.unknown_event(sender_id));
        }
        if self.outgoing.set(args, ObjectId::raw).is_err() {
            return self.send_without_descriptor(message);
        }
        let size = self.outgoing.size();
        let may_end = self.names.table.may_end(sender_id.interface, *opcode);
        // The client may be killed, too.
        self.count_end();
        let answer = self
            .server
            .send_event(&sender_id.raw(), *opcode, &mut self.outgoing, may_end);
        if answer.is_err() {
            self.outgoing.clear();
            return answer;
        }
        if let Some(connection) = self.connection(&sender_id.client()) {
            connection.queued += size;
            if connection.queued > ALWAYS_FITS {
                // The client may have been killed, since there was no room.
                self.take_notes();
            }
        }
        if self.is_logging {
            self.log_event(message);
        }
        Ok(())
    }

    /// Answers for an event with a descriptor that cannot be duplicated. If nothing else is wrong with it, its client is
    /// killed.
    #[cold]
    fn send_without_descriptor(
        &mut self,
        message: &Message<ObjectId, RawFd>,
    ) -> Result<(), Status> {
        let Message {
            sender_id,
            opcode,
            args,
        } = message;
        let event = sender_id.interface.events.get(usize::from(*opcode));
        let signature = event.map_or(&[][..], |event| event.signature);
        // With too many arguments nothing is sent, and the answer is what is wrong before the arguments are looked at.
        self.outgoing.set_numbers(signature.len() + 1);
        let answer = self
            .server
            .send_event(&sender_id.raw(), *opcode, &mut self.outgoing, true);
        self.outgoing.clear();
        let types = args.iter().map(Argument::get_type);
        let is_fitting = signature.len() == args.len()
            && types.zip(signature).all(|(one, two)| one.same_type(*two));
        if answer == Err(Status::BAD_SIGNATURE) && is_fitting {
            self.kill(&sender_id.client(), DisconnectReason::ConnectionClosed);
            return Ok(());
        }
        answer
    }

    /// Ends the client for an error of the object, and tells it at once.
    pub(super) fn post_error(&mut self, object: &ObjectId, code: u32, message: &[u8]) {
        let mut raw = object.raw();
        // An object's interface has a row. The null object's is any.
        raw.interface = self.row(object.interface).unwrap_or_default();
        self.count_end();
        self.server.post_error(&raw, code, message);
        let _ = self.flush_client(&object.client());
        self.take_notes();
    }

    /// Lists the clients for which something waits.
    fn list_writable(&mut self) {
        while let Some(client) = self.server.next_writable() {
            let place = self.connections.get_mut(client.slot as usize);
            let Some(Some(connection)) = place else {
                continue;
            };
            if !connection.is_listed {
                connection.is_listed = true;
                self.listed.push_back(client.slot);
            }
        }
    }

    /// The slot of the next client for which something may wait.
    fn next_to_flush(&mut self) -> Option<u32> {
        if let Some(slot) = self.listed.pop_front() {
            return Some(slot);
        }
        while let Some(client) = self.server.next_writable() {
            let place = self.connections.get_mut(client.slot as usize);
            let Some(Some(connection)) = place else {
                continue;
            };
            if !mem::replace(&mut connection.is_listed, true) {
                return Some(client.slot);
            }
        }
        None
    }

    /// Sends what waits for all clients, as far as their sockets take it.
    pub(super) fn flush_all(&mut self) {
        let mut full = VecDeque::new();
        // When all was sent that the session had ready for a client, there may be more: then it comes again.
        while let Some(slot) = self.next_to_flush() {
            if self.flush_slot(slot).is_err() {
                full.push_back(slot);
            }
        }
        if !full.is_empty() {
            self.listed = full;
        }
        self.server.close_dropped();
        self.take_notes();
    }

    /// Sends what waits for one client. One that is gone is no error.
    pub(super) fn flush_client(&mut self, id: &ClientId) -> io::Result<()> {
        loop {
            self.list_writable();
            if self.connection(id).is_none_or(|it| !it.is_listed) {
                return Ok(());
            }
            self.flush_slot(id.slot)?;
            self.listed.retain(|&slot| slot != id.slot);
        }
    }

    /// Sends what waits for the client in the slot, if there is one.
    fn flush_slot(&mut self, slot: u32) -> Result<(), Errno> {
        let Some(Some(connection)) = self.connections.get_mut(slot as usize) else {
            return Ok(());
        };
        let id = RawClientId {
            serial: connection.serial,
            slot,
        };
        let (to, is_full) = (connection.stream.as_fd(), &mut connection.is_full);
        while self.server.send(&id, to, is_full)? == Sent::Some {}
        connection.is_listed = false;
        connection.queued = 0;
        Ok(())
    }

    #[cold]
    fn log_request(&self, args: &Arguments<ObjectId>) {
        if self.action.kind != sys::NB_BIND {
            let (sender, opcode) = self.sender();
            let request = sender.interface.requests.get(usize::from(opcode));
            let name = request.map_or("?", |request| request.name);
            debug::print_dispatched(Logged(&sender), name, debug::List(args));
        }
    }

    #[cold]
    fn log_event(&self, message: &Message<ObjectId, RawFd>) {
        let Message {
            sender_id,
            opcode,
            args,
        } = message;
        let event = sender_id.interface.events.get(usize::from(*opcode));
        let name = event.map_or("?", |event| event.name);
        debug::print_sent(Logged(sender_id), name, debug::List(args));
    }
}

#[cfg(feature = "server_system")]
impl Drop for Core {
    fn drop(&mut self) {
        crate::sys::close_server(self.names.mark);
    }
}

/// Prints the event of the display that tells a client of its error.
#[cold]
fn log_error(client: &RawClientId, error: &ClientError) {
    let ClientError {
        code,
        object,
        interface,
        message,
    } = error;
    let (slot, message) = (client.slot, Some(message));
    let arguments = format_args!("{interface}@{object}[{slot}], {code}, {message:?}");
    debug::print_sent("wl_display@1", "error", arguments);
}

/// An object in the log.
struct Logged<'a>(&'a ObjectId);

impl fmt::Display for Logged<'_> {
    fn fmt(&self, f: &mut fmt::Formatter<'_>) -> fmt::Result {
        write!(f, "{}@{}", self.0.interface.name, self.0.number)
    }
}
