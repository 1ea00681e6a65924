//! A server's session.

use std::mem;
use std::os::fd::{BorrowedFd, OwnedFd};

use numbyroga_sys as sys;
use rustix::io::Errno;
use smallvec::SmallVec;

use super::messages::Lent;
use super::receiving::{Ending, Inbox};
use super::rows::table_answer;
use super::transit::Transit;
use super::{
    answer, done, send_once, take_back, Action, Arguments, Outgoing, RawArgument, RawClientId,
    RawGlobalId, RawGlobalInfo, RawObjectId, RawObjectInfo, Receipt, Rows, Sent, Status,
    TableFault,
};

/// All clients and globals have this group in common. What is hidden is said by lists.
const EVERYBODY: u64 = 1;

/// What happened in a server's session.
#[derive(Clone, Debug, PartialEq, Eq)]
pub(crate) enum Note {
    /// The client was inserted.
    Inserted(RawClientId),
    /// The client was killed.
    Killed {
        /// The client.
        client: RawClientId,
        /// Why, if it was for a protocol error.
        error: Option<Box<ClientError>>,
    },
    /// An object with data is gone.
    Destroyed {
        /// The object.
        object: RawObjectId,
        /// Its data.
        data: u64,
    },
}

/// The protocol error for which a client was killed.
#[derive(Clone, Debug, PartialEq, Eq)]
pub(crate) struct ClientError {
    /// The error's code.
    pub(crate) code: u32,
    /// The number of the object.
    pub(crate) object: u32,
    /// The name of the object's interface.
    pub(crate) interface: String,
    /// What the client was told.
    pub(crate) message: String,
}

/// A client that is gone, with what is still to be sent to it.
#[derive(Debug)]
pub(crate) struct Gone<'a> {
    /// The client.
    pub(crate) client: RawClientId,
    /// The last bytes for it.
    pub(crate) bytes: &'a [u8],
    /// The descriptors that go with them.
    pub(crate) descriptors: SmallVec<[OwnedFd; 4]>,
}

/// As many bytes are ready to be sent to a client before more has to wait until some of them were sent.
const ROOM: u32 = sys::NB_MOST_BYTES as u32;

/// Which clients the session may have something to send to, that it has not told of.
#[derive(Clone, Copy, Debug, PartialEq, Eq)]
enum Writable {
    Nobody,
    /// The client in this slot, if anybody.
    One(u32),
    Anybody,
}

/// A server's session. Its clients' sockets are the caller's.
///
/// It keeps what it needs to know when there is nothing to ask the library for.
#[derive(Debug)]
pub(crate) struct Server {
    place: sys::nb_server,
    lent: Lent,
    transit: Transit,
    /// The note that was taken last.
    note: sys::nb_note,
    /// How many descriptors the session has.
    descriptors: usize,
    may_have_notes: bool,
    may_clean_up: bool,
    writable: Writable,
    /// The slot of the client that the session told of last, if nothing was sent to it since.
    told: Option<u32>,
    /// How many clients were killed, as far as the notes were taken.
    kills: usize,
}

impl Server {
    /// A new session. It has no client, and a table of the three fixed interfaces.
    pub(crate) fn new() -> Server {
        let mut place = sys::nb_server::EMPTY;
        let mut fault = sys::nb_table_fault::default();
        let rows = Rows::default();
        // SAFETY: each slice is lent with its own length.
        let status = unsafe {
            sys::nb_server_new(
                &mut place,
                rows.text.as_ptr(),
                0,
                rows.interfaces.as_ptr(),
                0,
                rows.messages.as_ptr(),
                0,
                rows.arguments.as_ptr(),
                0,
                &mut fault,
            )
        };
        done(status);
        Server {
            place,
            lent: Lent::new(),
            transit: Transit::whole(),
            note: sys::nb_note::default(),
            descriptors: 0,
            may_have_notes: false,
            may_clean_up: false,
            writable: Writable::Nobody,
            told: None,
            kills: 0,
        }
    }

    /// A client may have been killed, or an object may have ended.
    #[inline]
    fn mark(&mut self) {
        self.may_have_notes = true;
        self.may_clean_up = true;
    }

    /// There may be something to be sent to the client.
    #[inline]
    fn list(&mut self, client: &RawClientId) {
        self.writable = match self.writable {
            Writable::Nobody => Writable::One(client.slot),
            Writable::One(slot) if slot == client.slot => return,
            _ => Writable::Anybody,
        };
    }

    /// All clients may have been told something.
    fn mark_all(&mut self) {
        self.mark();
        self.writable = Writable::Anybody;
    }

    /// How many clients were killed, as far as the notes were taken.
    #[inline]
    pub(crate) fn kills(&self) -> usize {
        self.kills
    }

    /// Whether there may be notes.
    #[inline]
    pub(crate) fn may_have_notes(&self) -> bool {
        self.may_have_notes
    }

    /// Whether there are no notes, nothing to be cleaned up and no descriptors to be closed.
    #[inline]
    pub(crate) fn is_clean(&self) -> bool {
        !self.may_have_notes && !self.may_clean_up && self.descriptors == 0
    }

    /// Extends the table by whole rows: those of interfaces that it has, and of new ones.
    pub(crate) fn extend_interfaces(&mut self, rows: &Rows) -> Result<(), TableFault> {
        let mut fault = sys::nb_extension_fault::default();
        // SAFETY: each slice is lent with its own length.
        let status = unsafe {
            sys::nb_server_merge_interfaces(
                &mut self.place,
                rows.text.as_ptr(),
                rows.text.len(),
                rows.interfaces.as_ptr(),
                rows.interfaces.len(),
                rows.messages.as_ptr(),
                rows.messages.len(),
                rows.arguments.as_ptr(),
                rows.arguments.len(),
                &mut fault,
            )
        };
        table_answer(status, fault)
    }

    /// Sets how far the buffers of clients that are inserted from now on may grow, in bytes.
    #[cfg(any(test, feature = "libwayland_server_1_23"))]
    pub(crate) fn set_default_max_buffer_size(&mut self, size: u64) {
        done(sys::nb_server_set_default_max_buffer_size(
            &mut self.place,
            size,
        ));
    }

    /// Sets how far the buffers of a client may grow, in bytes. An unknown client is no error.
    #[cfg(feature = "libwayland_server_1_23")]
    pub(crate) fn set_max_buffer_size(&mut self, client: &RawClientId, size: u64) {
        done(sys::nb_server_set_max_buffer_size(
            &mut self.place,
            client,
            size,
        ));
    }

    /// The id that the next client will have. Statuses: `FULL`.
    pub(crate) fn next_client_id(&mut self) -> Result<RawClientId, Status> {
        let mut client = RawClientId::default();
        answer(sys::nb_server_next_client_id(&mut self.place, &mut client))?;
        Ok(client)
    }

    /// Inserts a client, which does not see these globals. Statuses: `FULL`.
    pub(crate) fn insert_client(
        &mut self,
        data: u64,
        hidden: &[RawGlobalId],
    ) -> Result<RawClientId, Status> {
        let mut client = RawClientId::default();
        self.mark_all();
        // SAFETY: the slice is lent with its own length.
        let status = unsafe {
            sys::nb_server_insert_client(
                &mut self.place,
                data,
                EVERYBODY,
                hidden.as_ptr(),
                hidden.len(),
                &mut client,
            )
        };
        answer(status)?;
        Ok(client)
    }

    /// The live clients, by ascending slot.
    pub(crate) fn clients(&mut self) -> Vec<RawClientId> {
        let place = &mut self.place;
        fill(|clients: &mut [RawClientId], count| {
            // SAFETY: the slice is lent with its own length.
            unsafe { sys::nb_server_clients(place, clients.as_mut_ptr(), clients.len(), count) }
        })
        .unwrap_or_default()
    }

    /// Kills a client, as if its connection had ended. An unknown one is no error.
    pub(crate) fn kill_client(&mut self, client: &RawClientId) {
        self.mark();
        self.list(client);
        done(sys::nb_server_kill_client(&mut self.place, client));
    }

    /// Receives once from a client's socket. The end of the stream and a failure are told to the session, which answers
    /// them when its actions are taken.
    #[inline]
    pub(crate) fn receive(
        &mut self,
        client: &RawClientId,
        from: BorrowedFd<'_>,
        inbox: &mut Inbox,
    ) -> Receipt {
        let Server {
            place,
            transit,
            descriptors,
            ..
        } = self;
        let (receipt, ending) = inbox.receive(from, transit.receiving(), |bytes, numbers| {
            // SAFETY: each slice is lent with its own length.
            answer(unsafe {
                sys::nb_server_received(
                    place,
                    client,
                    bytes.as_ptr(),
                    bytes.len(),
                    numbers.as_ptr(),
                    numbers.len(),
                )
            })?;
            *descriptors += numbers.len();
            Ok(())
        });
        // A client that is gone is told nothing more: that is no error.
        match ending {
            None => {}
            Some(Ending::Ended) => {
                let _ = sys::nb_server_received_end(&mut self.place, client);
            }
            Some(Ending::Failed(error)) => {
                let number = error.raw_os_error();
                let _ = sys::nb_server_receive_failed(&mut self.place, client, number);
            }
        }
        receipt
    }

    /// The next action of a client. It is open until it is finished. Its arguments are appended to `arguments`; `id` answers
    /// an id for an object among them. The answer is how many descriptors are among them.
    ///
    /// Statuses: `INVALID_ID`, `OPEN`, `CLOSED`, `PROTOCOL_ERROR`, `WOULD_BLOCK`, `IO_ERROR`. The client is killed after
    /// `CLOSED`, `PROTOCOL_ERROR` and `IO_ERROR`.
    #[inline]
    pub(crate) fn next_action<Id>(
        &mut self,
        client: &RawClientId,
        action: &mut Action,
        arguments: &mut Arguments<Id>,
        mut id: impl FnMut(&Action, &RawArgument) -> Id,
    ) -> Result<usize, Status> {
        // The session may have answered by itself.
        self.list(client);
        loop {
            let Lent {
                arguments, bytes, ..
            } = &mut self.lent;
            // SAFETY: each slice is lent with its own length.
            let status = unsafe {
                sys::nb_server_next_action(
                    &mut self.place,
                    client,
                    action,
                    arguments.as_mut_ptr(),
                    arguments.len(),
                    bytes.as_mut_ptr(),
                    bytes.len(),
                )
            };
            match status {
                sys::NB_OK => break,
                sys::NB_TOO_SMALL => self.lent.grow(action.arguments, action.bytes),
                sys::NB_WOULD_BLOCK => return Err(Status::WOULD_BLOCK),
                other => {
                    self.mark();
                    answer(other)?;
                }
            }
        }
        // SAFETY: the session has just handed the message out.
        let descriptors = unsafe {
            self.lent
                .take(action.arguments, arguments, |argument| id(action, argument))
        };
        self.descriptors -= descriptors;
        Ok(descriptors)
    }

    /// Finishes the open request, with the data of the object that it made. The answer is whether that object has the
    /// data now; if it is gone, no note will name them. `ends_sender` says whether it is a destructor.
    ///
    /// Statuses: `INVALID_ID`, `NOT_OPEN`, `WRONG_KIND`, `MISSING_DATA`, `UNEXPECTED_DATA`.
    #[inline]
    pub(crate) fn finish_request(
        &mut self,
        client: &RawClientId,
        data: Option<u64>,
        ends_sender: bool,
    ) -> Result<bool, Status> {
        let mut is_kept = 0;
        if ends_sender {
            // If that kills the client, a note says so before there is something to be cleaned up.
            self.may_have_notes = true;
            self.list(client);
        }
        answer(match data {
            Some(data) => {
                sys::nb_server_finish_request_with(&mut self.place, client, data, &mut is_kept)
            }
            None => sys::nb_server_finish_request(&mut self.place, client),
        })?;
        Ok(is_kept != 0)
    }

    /// Finishes the open bind, with the data of its object. The answer is as for a request.
    ///
    /// Statuses: `INVALID_ID`, `NOT_OPEN`, `WRONG_KIND`.
    pub(crate) fn finish_bind(&mut self, client: &RawClientId, data: u64) -> Result<bool, Status> {
        let mut is_kept = 0;
        answer(sys::nb_server_finish_bind(
            &mut self.place,
            client,
            data,
            &mut is_kept,
        ))?;
        Ok(is_kept != 0)
    }

    /// Sends an event, which may end its sender or not. If it succeeds, the descriptors of the message are the session's.
    pub(crate) fn send_event(
        &mut self,
        sender: &RawObjectId,
        opcode: u16,
        message: &mut Outgoing,
        may_end: bool,
    ) -> Result<(), Status> {
        // The end of an object is noted when it is cleaned up. If there is no room and the client is killed, that is noted
        // before.
        self.may_have_notes = true;
        self.may_clean_up |= may_end;
        self.list(&sender.client);
        // SAFETY: each slice is lent with its own length.
        let status = unsafe {
            sys::nb_server_send_event(
                &mut self.place,
                sender,
                opcode.into(),
                message.arguments.as_ptr(),
                message.arguments.len(),
                message.bytes.as_ptr(),
                message.bytes.len(),
            )
        };
        answer(status)?;
        self.descriptors += message.give_up_descriptors();
        Ok(())
    }

    /// Ends a client for an error of this object. The message has no zero byte: what stands behind one is left out.
    pub(crate) fn post_error(&mut self, object: &RawObjectId, code: u32, message: &[u8]) {
        self.mark();
        self.list(&object.client);
        let message = message.split(|&byte| byte == 0).next().unwrap_or_default();
        // SAFETY: the slice is lent with its own length.
        done(unsafe {
            sys::nb_server_post_error(
                &mut self.place,
                object,
                code,
                message.as_ptr(),
                message.len(),
            )
        });
    }

    /// Makes an object of the server for a client.
    ///
    /// Statuses: `INVALID_ID`, `UNKNOWN_INTERFACE`, `IDS_EXHAUSTED`, `SERIALS_EXHAUSTED`.
    pub(crate) fn create_object(
        &mut self,
        client: &RawClientId,
        interface: u32,
        version: u32,
        data: u64,
    ) -> Result<RawObjectId, Status> {
        let mut object = RawObjectId::default();
        answer(sys::nb_server_create_object(
            &mut self.place,
            client,
            interface,
            version,
            1,
            data,
            &mut object,
        ))?;
        Ok(object)
    }

    /// Destroys an object. Statuses: `INVALID_ID`.
    pub(crate) fn destroy_object(&mut self, object: &RawObjectId) -> Result<(), Status> {
        self.mark();
        self.list(&object.client);
        answer(sys::nb_server_destroy_object(&mut self.place, object))
    }

    /// An object's number, interface and version.
    pub(crate) fn object_info(&mut self, object: &RawObjectId) -> Option<RawObjectInfo> {
        let mut info = RawObjectInfo::default();
        answer(sys::nb_server_object_info(
            &mut self.place,
            object,
            &mut info,
        ))
        .ok()?;
        Some(info)
    }

    /// An object's data.
    pub(crate) fn object_data(&mut self, object: &RawObjectId) -> Option<u64> {
        let mut data = 0;
        answer(sys::nb_server_object_data(
            &mut self.place,
            object,
            &mut data,
        ))
        .ok()?;
        Some(data)
    }

    /// Sets an object's data. Statuses: `INVALID_ID`.
    pub(crate) fn set_object_data(
        &mut self,
        object: &RawObjectId,
        data: u64,
    ) -> Result<(), Status> {
        answer(sys::nb_server_set_object_data(
            &mut self.place,
            object,
            data,
        ))
    }

    /// The client's object with this number, if it is of this interface.
    pub(crate) fn object_for_protocol_id(
        &mut self,
        client: &RawClientId,
        interface: u32,
        number: u32,
    ) -> Option<RawObjectId> {
        let mut object = RawObjectId::default();
        answer(sys::nb_server_object_for_protocol_id(
            &mut self.place,
            client,
            interface,
            number,
            &mut object,
        ))
        .ok()?;
        Some(object)
    }

    /// The objects of a client, by ascending number. Statuses: `INVALID_ID`.
    pub(crate) fn objects(&mut self, client: &RawClientId) -> Result<Vec<RawObjectId>, Status> {
        let place = &mut self.place;
        fill(|objects: &mut [RawObjectId], count| {
            // SAFETY: the slice is lent with its own length.
            unsafe {
                sys::nb_server_objects(place, client, objects.as_mut_ptr(), objects.len(), count)
            }
        })
    }

    /// The id that the next global will have. Statuses: `FULL`.
    pub(crate) fn next_global_id(&mut self) -> Result<RawGlobalId, Status> {
        let mut global = RawGlobalId::default();
        answer(sys::nb_server_next_global_id(&mut self.place, &mut global))?;
        Ok(global)
    }

    /// Creates a global, which these clients do not see.
    ///
    /// Statuses: `UNKNOWN_INTERFACE`, `VERSION_TOO_HIGH`, `FULL`.
    pub(crate) fn create_global(
        &mut self,
        interface: u32,
        version: u32,
        data: u64,
        hidden: &[RawClientId],
    ) -> Result<RawGlobalId, Status> {
        let mut global = RawGlobalId::default();
        self.mark_all();
        // SAFETY: the slice is lent with its own length.
        let status = unsafe {
            sys::nb_server_create_global(
                &mut self.place,
                interface,
                version,
                data,
                EVERYBODY,
                hidden.as_ptr(),
                hidden.len(),
                &mut global,
            )
        };
        answer(status)?;
        Ok(global)
    }

    /// Announces a global no more. An unknown one is no error.
    pub(crate) fn disable_global(&mut self, global: &RawGlobalId) {
        self.mark_all();
        done(sys::nb_server_disable_global(&mut self.place, global));
    }

    /// Removes a global. An unknown one is no error.
    pub(crate) fn remove_global(&mut self, global: &RawGlobalId) {
        self.mark_all();
        done(sys::nb_server_remove_global(&mut self.place, global));
    }

    /// What a global offers.
    pub(crate) fn global_info(&mut self, global: &RawGlobalId) -> Option<RawGlobalInfo> {
        let mut info = RawGlobalInfo::default();
        answer(sys::nb_server_global_info(
            &mut self.place,
            global,
            &mut info,
        ))
        .ok()?;
        Some(info)
    }

    /// The name that a client binds a global by, if both are there and the client sees it.
    #[cfg(feature = "libwayland_server_1_22")]
    pub(crate) fn global_name(
        &mut self,
        global: &RawGlobalId,
        client: &RawClientId,
    ) -> Option<u32> {
        let mut name = 0;
        answer(sys::nb_server_global_name(
            &mut self.place,
            global,
            client,
            &mut name,
        ))
        .ok()?;
        Some(name)
    }

    /// The next client to which something is to be sent. Each comes once, until more is to be sent to it.
    pub(crate) fn next_writable(&mut self) -> Option<RawClientId> {
        if self.writable == Writable::Nobody {
            return None;
        }
        let mut client = RawClientId::default();
        let status = sys::nb_server_next_writable(&mut self.place, &mut client);
        let is_one = answer(status).is_ok();
        if !is_one || self.writable != Writable::Anybody {
            self.writable = Writable::Nobody;
        }
        self.told = is_one.then_some(client.slot);
        is_one.then_some(client)
    }

    /// Sends once to a client's socket what the session has ready for it. For a client that is gone that is nothing.
    /// `is_full` says whether the socket took nothing the last time, and is noted anew.
    pub(crate) fn send(
        &mut self,
        client: &RawClientId,
        to: BorrowedFd<'_>,
        is_full: &mut bool,
    ) -> Result<Sent, Errno> {
        let mut counts = sys::nb_counts::default();
        let bytes = self.transit.sending(*is_full);
        let numbers = &mut self.lent.descriptors;
        // SAFETY: each slice is lent with its own length.
        let status = unsafe {
            sys::nb_server_to_send(
                &mut self.place,
                client,
                bytes.as_mut_ptr(),
                bytes.len(),
                numbers.as_mut_ptr(),
                numbers.len(),
                &mut counts,
            )
        };
        if answer(status).is_err() {
            return Ok(Sent::Nothing);
        }
        let Server {
            place, descriptors, ..
        } = self;
        let sent = send_once(to, is_full, counts, bytes, numbers, |count| {
            done(sys::nb_server_sent(place, client, count));
            *descriptors -= counts.descriptors as usize;
        });
        // There may be more for which there was no room when the session told of the client.
        let is_told = self.told.take() == Some(client.slot);
        let is_short = counts.bytes < ROOM && counts.descriptors == 0;
        if !(is_told && is_short && sent == Ok(Sent::All)) {
            self.list(client);
        }
        sent
    }

    /// Takes the clients out that were killed: each comes by [`Server::next_gone`], and its objects are noted. The answer
    /// is whether there may have been anything to do. That is known when all notes were taken.
    pub(crate) fn cleanup(&mut self) -> bool {
        if !mem::take(&mut self.may_clean_up) {
            return false;
        }
        done(sys::nb_server_cleanup(&mut self.place));
        self.may_have_notes = true;
        true
    }

    /// The next client that was taken out.
    pub(crate) fn next_gone(&mut self) -> Option<Gone<'_>> {
        let mut gone = sys::nb_gone::default();
        loop {
            let Lent {
                bytes,
                descriptors: numbers,
                ..
            } = &mut self.lent;
            // SAFETY: each slice is lent with its own length.
            let status = unsafe {
                sys::nb_server_next_gone(
                    &mut self.place,
                    &mut gone,
                    bytes.as_mut_ptr(),
                    bytes.len(),
                    numbers.as_mut_ptr(),
                    numbers.len(),
                )
            };
            if status == sys::NB_TOO_SMALL {
                self.lent.grow(0, gone.waiting.bytes);
                continue;
            }
            answer(status).ok()?;
            break;
        }
        let numbers = &self.lent.descriptors[..gone.waiting.descriptors as usize];
        self.descriptors -= numbers.len();
        let descriptors = numbers
            .iter()
            // SAFETY: the session has just handed these out.
            .map(|&number| unsafe { take_back(number) })
            .collect();
        let bytes = &self.lent.bytes[..gone.waiting.bytes as usize];
        Some(Gone {
            client: gone.client,
            bytes,
            descriptors,
        })
    }

    /// The next note, the oldest first.
    #[inline]
    pub(crate) fn next_note(&mut self) -> Option<Note> {
        if !self.may_have_notes {
            return None;
        }
        loop {
            let text = &mut self.lent.bytes;
            // SAFETY: the slice is lent with its own length.
            let status = unsafe {
                sys::nb_server_next_note(
                    &mut self.place,
                    &mut self.note,
                    text.as_mut_ptr(),
                    text.len(),
                )
            };
            if status != sys::NB_TOO_SMALL {
                self.may_have_notes = answer(status).is_ok();
                return self.may_have_notes.then(|| self.note());
            }
            self.lent
                .grow(0, self.note.message_length + self.note.interface_length);
        }
    }

    /// The note that was taken last.
    fn note(&mut self) -> Note {
        let note = &self.note;
        if note.kind == sys::NB_KILLED {
            self.kills += 1;
            self.may_clean_up = true;
        }
        match note.kind {
            sys::NB_INSERTED => Note::Inserted(note.client),
            sys::NB_KILLED => Note::Killed {
                client: note.client,
                error: (note.is_protocol_error != 0).then(|| {
                    let (message, interface) =
                        self.lent.texts(note.message_length, note.interface_length);
                    Box::new(ClientError {
                        code: note.code,
                        object: note.object_number,
                        interface,
                        message,
                    })
                }),
            },
            _ => Note::Destroyed {
                object: note.object,
                data: note.data,
            },
        }
    }

    /// Closes the descriptors that the session had and will not hand out.
    pub(crate) fn close_dropped(&mut self) {
        let mut number = -1;
        while self.descriptors > 0
            && sys::nb_server_next_dropped(&mut self.place, &mut number) == sys::NB_OK
        {
            self.descriptors -= 1;
            // SAFETY: the session has just handed it out.
            drop(unsafe { take_back(number) });
        }
    }
}

impl Drop for Server {
    /// Takes the descriptors out that the session still has, and ends it.
    fn drop(&mut self) {
        for client in self.clients() {
            self.kill_client(&client);
        }
        self.mark();
        self.cleanup();
        while self.next_gone().is_some() {}
        self.close_dropped();
        sys::nb_server_end(&mut self.place);
    }
}

/// All elements of a list that a call writes: it says how many there are, also if there is too little room.
fn fill<T: Copy + Default>(
    mut call: impl FnMut(&mut [T], &mut u32) -> sys::nb_status,
) -> Result<Vec<T>, Status> {
    let mut list = vec![T::default(); 16];
    loop {
        let mut count = 0;
        let status = call(&mut list, &mut count);
        if status != sys::NB_TOO_SMALL {
            answer(status)?;
            list.truncate(count as usize);
            return Ok(list);
        }
        list.resize(count as usize, T::default());
    }
}

#[cfg(test)]
mod tests {
    use std::os::fd::AsFd;
    use std::os::unix::net::UnixStream;

    use super::*;
    use crate::library::FIRST_TRY;

    #[test]
    fn little_is_copied_for_a_socket_that_is_full() {
        const SYNCS: u32 = 20_000;
        let (ours, _theirs) = UnixStream::pair().unwrap();
        let mut server = Server::new();
        server.set_default_max_buffer_size(1 << 24);
        let client = server.insert_client(0, &[]).unwrap();
        // Each wl_display.sync is answered by 24 bytes, more than a socket takes.
        let asked: Vec<u8> = (0..SYNCS)
            .flat_map(|number| [1, 12 << 16, 2 + number % 2])
            .flat_map(u32::to_ne_bytes)
            .collect();
        let (mut action, mut arguments) = (Action::default(), Arguments::new());
        for part in asked.chunks(4096) {
            let place = &mut server.place;
            // SAFETY: each slice is lent with its own length.
            let status = unsafe {
                sys::nb_server_received(place, &client, part.as_ptr(), part.len(), [].as_ptr(), 0)
            };
            assert_eq!(answer(status), Ok(()));
            let next = server.next_action(&client, &mut action, &mut arguments, |_, _| ());
            assert_eq!(next, Err(Status::WOULD_BLOCK));
        }
        let mut is_full = false;
        while let Some(client) = server.next_writable() {
            while !is_full {
                match server.send(&client, ours.as_fd(), &mut is_full) {
                    Ok(Sent::Some) => {}
                    _ => break,
                }
            }
        }
        assert!(is_full);
        server.transit.receiving().0.fill(0xAA);
        let sent = server.send(&client, ours.as_fd(), &mut is_full);
        assert_eq!(sent, Err(Errno::AGAIN));
        let bytes = server.transit.receiving().0;
        let left = bytes.iter().rev().take_while(|&&byte| byte == 0xAA);
        assert_eq!(bytes.len() - left.count(), FIRST_TRY);
    }
}
