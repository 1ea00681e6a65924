//! A client's session.

use std::os::fd::{BorrowedFd, RawFd};

use numbyroga_sys as sys;
use rustix::io::Errno;

use super::messages::Lent;
use super::receiving::{Ending, Inbox};
use super::rows::table_answer;
use super::transit::{with_transit, Transit};
use super::{
    answer, done, send_once, take_back, Arguments, Event, Outgoing, RawArgument, RawObjectId,
    RawObjectInfo, Receipt, Request, Rows, Sent, Status, TableFault, Told, NO_DESCRIPTOR,
};
use crate::protocol::Argument;

/// No limit of a session's buffers is lower.
#[cfg(feature = "libwayland_client_1_23")]
const LEAST_LIMIT: usize = 4096;

/// The error of a client's session.
#[derive(Clone, Debug, PartialEq, Eq)]
pub(crate) enum SessionError {
    /// The socket failed, or the connection ended. `number` is the errno of [`Status::IO_ERROR`].
    Io {
        /// What happened.
        status: Status,
        /// The system's number.
        number: i32,
    },
    /// The server sent an error, or broke the protocol: then code and object are 0.
    Protocol {
        /// The code that the server sent.
        code: u32,
        /// The number of the object that the server named.
        object: u32,
        /// The name of that object's interface.
        interface: String,
        /// What the server said.
        message: String,
    },
}

/// A client's session over a socket of the caller's.
#[derive(Debug)]
pub(crate) struct Client {
    place: sys::nb_client,
    lent: Lent,
    inbox: Inbox,
    /// Whether the socket took nothing when something was sent last.
    is_full: bool,
    /// How many descriptors the session has.
    descriptors: usize,
    /// How often something was done that may have given the session an error. To receive and to take events does not count.
    dangers: usize,
}

impl Client {
    /// A new session. It has one object, the display, and a table of the three fixed interfaces.
    pub(crate) fn new() -> Client {
        let mut place = sys::nb_client::EMPTY;
        let mut fault = sys::nb_table_fault::default();
        let rows = Rows::default();
        // SAFETY: each slice is lent with its own length.
        let status = unsafe {
            sys::nb_client_connect(
                &mut place,
                rows.text.as_ptr(),
                0,
                rows.interfaces.as_ptr(),
                0,
                rows.messages.as_ptr(),
                0,
                rows.arguments.as_ptr(),
                0,
                &mut fault,
            )
        };
        done(status);
        done(sys::nb_client_keep_freed(&mut place, 1));
        Client {
            place,
            lent: Lent::new(),
            inbox: Inbox::default(),
            is_full: false,
            descriptors: 0,
            dangers: 0,
        }
    }

    /// Has [`Client::next_read`] tell what is read. Nothing was received or sent yet.
    pub(crate) fn tell_messages(&mut self) {
        done(sys::nb_client_tell_messages(&mut self.place, 1));
    }

    /// The next event that was read, also one that is handed to nobody, with its arguments: `id` answers an id for an object
    /// among them, and a descriptor is a number, which may be closed already. An event of an object that is not there is left
    /// out.
    pub(crate) fn next_read<Id>(
        &mut self,
        mut id: impl FnMut(&Told, &RawArgument) -> Id,
    ) -> Option<(Told, Vec<Argument<Id, RawFd>>)> {
        let mut told = Told::default();
        loop {
            let Lent {
                arguments, bytes, ..
            } = &mut self.lent;
            // SAFETY: each slice is lent with its own length.
            let status = unsafe {
                sys::nb_client_next_told(
                    &mut self.place,
                    &mut told,
                    arguments.as_mut_ptr(),
                    arguments.len(),
                    bytes.as_mut_ptr(),
                    bytes.len(),
                )
            };
            if status == sys::NB_TOO_SMALL {
                self.lent.grow(told.arguments, told.bytes);
                continue;
            }
            answer(status).ok()?;
            if told.is_event != 0 && told.kind == sys::NB_MESSAGE {
                break;
            }
        }
        let arguments = self
            .lent
            .told(told.arguments, |argument| id(&told, argument));
        self.lent.shrink();
        Some((told, arguments))
    }

    /// The session may get an error.
    #[inline]
    fn mark(&mut self) {
        self.dangers = self.dangers.wrapping_add(1);
    }

    /// How often something was done that may have given the session an error. To receive and to take events does not count:
    /// their answers tell of an error.
    #[inline]
    pub(crate) fn dangers(&self) -> usize {
        self.dangers
    }

    /// Extends the table by whole rows: those of interfaces that it has, and of new ones.
    pub(crate) fn extend_interfaces(&mut self, rows: &Rows) -> Result<(), TableFault> {
        let mut fault = sys::nb_extension_fault::default();
        // SAFETY: each slice is lent with its own length.
        let status = unsafe {
            sys::nb_client_merge_interfaces(
                &mut self.place,
                rows.text.as_ptr(),
                rows.text.len(),
                rows.interfaces.as_ptr(),
                rows.interfaces.len(),
                rows.messages.as_ptr(),
                rows.messages.len(),
                rows.arguments.as_ptr(),
                rows.arguments.len(),
                &mut fault,
            )
        };
        table_answer(status, fault)
    }

    /// Sets how far the buffers may grow, in bytes. There is no limit at first.
    #[cfg(feature = "libwayland_client_1_23")]
    pub(crate) fn set_max_buffer_size(&mut self, limit: Option<usize>) {
        self.mark();
        let size = limit.unwrap_or(0) as u64;
        done(sys::nb_client_set_max_buffer_size(
            &mut self.place,
            limit.is_some().into(),
            size,
        ));
        // What a flush hands over and the socket does not take would not count. The session makes no buffer smaller
        // than this.
        let room = limit.map_or(u64::MAX, |limit| limit.max(LEAST_LIMIT) as u64);
        done(sys::nb_client_set_room(&mut self.place, room));
    }

    /// Receives once from the socket. The end of the stream and a failure are told to the session, which answers them
    /// when its events are taken.
    pub(crate) fn receive(&mut self, from: BorrowedFd<'_>) -> Receipt {
        let Client {
            place,
            inbox,
            descriptors,
            ..
        } = self;
        let arrive = |bytes: &[u8], numbers: &[i32]| {
            // SAFETY: each slice is lent with its own length.
            answer(unsafe {
                sys::nb_client_received(
                    place,
                    bytes.as_ptr(),
                    bytes.len(),
                    numbers.as_ptr(),
                    numbers.len(),
                )
            })?;
            *descriptors += numbers.len();
            Ok(())
        };
        let (receipt, ending) = with_transit(|transit| {
            let (receipt, ending) = inbox.receive(from, transit.receiving(), arrive);
            transit.passed(receipt.bytes);
            (receipt, ending)
        });
        match ending {
            None => {}
            Some(Ending::Ended) => done(sys::nb_client_received_end(&mut self.place)),
            Some(Ending::Failed(error)) => self.receive_failed(error),
        }
        receipt
    }

    /// The socket failed while it was read.
    fn receive_failed(&mut self, error: Errno) {
        done(sys::nb_client_receive_failed(
            &mut self.place,
            error.raw_os_error(),
        ));
    }

    /// The socket failed while it was written: the next [`Client::flush`] with something to send fails.
    pub(crate) fn send_failed(&mut self, error: Errno) {
        self.mark();
        done(sys::nb_client_send_failed(
            &mut self.place,
            error.raw_os_error(),
        ));
    }

    /// The next event. It is open until it is finished. Its arguments are appended to `arguments`; `id` answers an id for an
    /// object among them.
    ///
    /// Statuses: `FAILED`, `OPEN`, `WOULD_BLOCK`.
    #[inline]
    pub(crate) fn next_event<Id>(
        &mut self,
        event: &mut Event,
        arguments: &mut Arguments<Id>,
        mut id: impl FnMut(&Event, &RawArgument) -> Id,
    ) -> Result<(), Status> {
        loop {
            let Lent {
                arguments, bytes, ..
            } = &mut self.lent;
            // SAFETY: each slice is lent with its own length.
            let status = unsafe {
                sys::nb_client_next_event(
                    &mut self.place,
                    event,
                    arguments.as_mut_ptr(),
                    arguments.len(),
                    bytes.as_mut_ptr(),
                    bytes.len(),
                )
            };
            if status != sys::NB_TOO_SMALL {
                answer(status)?;
                break;
            }
            self.lent.grow(event.arguments, event.bytes);
        }
        // SAFETY: the session has just handed the message out.
        self.descriptors -= unsafe {
            self.lent
                .take(event.arguments, arguments, |argument| id(event, argument))
        };
        self.lent.shrink();
        Ok(())
    }

    /// Finishes the open event, with the data of the object that it made. The answer is whether that object is
    /// there; if the client has destroyed it, no note will name the data.
    ///
    /// Statuses: `NOT_OPEN`, `MISSING_DATA`, `UNEXPECTED_DATA`.
    #[inline]
    pub(crate) fn finish_event(&mut self, data: Option<u64>) -> Result<bool, Status> {
        let mut is_kept = 0;
        answer(match data {
            Some(data) => sys::nb_client_finish_event_with(&mut self.place, data, &mut is_kept),
            None => sys::nb_client_finish_event(&mut self.place),
        })?;
        Ok(is_kept != 0)
    }

    /// Sends a request, and answers the object that it makes. If it succeeds, the descriptors of the message are the
    /// session's.
    #[inline]
    pub(crate) fn send_request(
        &mut self,
        request: &Request,
        message: &mut Outgoing,
    ) -> Result<RawObjectId, Status> {
        let mut created = RawObjectId::default();
        self.mark();
        // SAFETY: each slice is lent with its own length.
        let status = unsafe {
            sys::nb_client_send_request(
                &mut self.place,
                request,
                message.arguments.as_ptr(),
                message.arguments.len(),
                message.bytes.as_ptr(),
                message.bytes.len(),
                &mut created,
            )
        };
        answer(status)?;
        self.descriptors += message.give_up_descriptors();
        Ok(created)
    }

    /// An object's number, interface and version, unless the client has destroyed it.
    #[inline]
    pub(crate) fn object_info(&mut self, object: &RawObjectId) -> Option<RawObjectInfo> {
        let mut info = RawObjectInfo::default();
        answer(sys::nb_client_object_info(
            &mut self.place,
            object,
            &mut info,
        ))
        .ok()?;
        Some(info)
    }

    /// The next object that left its number as events were taken.
    #[inline]
    pub(crate) fn next_freed(&mut self) -> Option<RawObjectId> {
        let mut object = RawObjectId::default();
        answer(sys::nb_client_next_freed(&mut self.place, &mut object)).ok()?;
        Some(object)
    }

    /// An object's data, also of one that was destroyed, until it leaves its number.
    #[inline]
    pub(crate) fn object_data(&mut self, object: &RawObjectId) -> Option<u64> {
        let mut data = 0;
        answer(sys::nb_client_object_data(
            &mut self.place,
            object,
            &mut data,
        ))
        .ok()?;
        Some(data)
    }

    /// Sets an object's data. Statuses: `INVALID_ID`.
    pub(crate) fn set_object_data(
        &mut self,
        object: &RawObjectId,
        data: u64,
    ) -> Result<(), Status> {
        answer(sys::nb_client_set_object_data(
            &mut self.place,
            object,
            data,
        ))
    }

    /// Destroys an object on the client's side. Statuses: `INVALID_ID`.
    pub(crate) fn destroy_object(&mut self, object: &RawObjectId) -> Result<(), Status> {
        answer(sys::nb_client_destroy_object(&mut self.place, object))
    }

    /// The display.
    pub(crate) fn display(&mut self) -> RawObjectId {
        let mut display = RawObjectId::default();
        done(sys::nb_client_display(&mut self.place, &mut display));
        display
    }

    /// Hands what waits over to [`Client::send`]. Statuses: `FAILED`, `WOULD_BLOCK`.
    pub(crate) fn flush(&mut self) -> Result<(), Status> {
        self.mark();
        answer(sys::nb_client_flush(&mut self.place))
    }

    /// Sends once to the socket what was handed over.
    pub(crate) fn send(&mut self, to: BorrowedFd<'_>) -> Result<Sent, Errno> {
        with_transit(|transit| self.send_by(transit, to))
    }

    #[inline]
    fn send_by(&mut self, transit: &mut Transit, to: BorrowedFd<'_>) -> Result<Sent, Errno> {
        let mut counts = sys::nb_counts::default();
        let bytes = transit.sending(self.is_full);
        let numbers = &mut self.lent.descriptors;
        // SAFETY: each slice is lent with its own length.
        let status = unsafe {
            sys::nb_client_to_send(
                &mut self.place,
                bytes.as_mut_ptr(),
                bytes.len(),
                numbers.as_mut_ptr(),
                numbers.len(),
                &mut counts,
            )
        };
        done(status);
        let Client {
            place,
            is_full,
            descriptors,
            ..
        } = self;
        let sent = send_once(to, is_full, counts, bytes, numbers, |count| {
            done(sys::nb_client_sent(place, count));
            *descriptors -= counts.descriptors as usize;
        })?;
        transit.passed(counts.bytes as usize);
        Ok(sent)
    }

    /// The session's error, if it has one.
    pub(crate) fn last_error(&mut self) -> Option<SessionError> {
        let mut error = sys::nb_error::default();
        loop {
            let text = &mut self.lent.bytes;
            // SAFETY: the slice is lent with its own length.
            let status = unsafe {
                sys::nb_client_last_error(
                    &mut self.place,
                    &mut error,
                    text.as_mut_ptr(),
                    text.len(),
                )
            };
            if status != sys::NB_TOO_SMALL {
                done(status);
                break;
            }
            self.lent
                .grow(0, error.message_length + error.interface_length);
        }
        match error.kind {
            sys::NB_NO_ERROR => None,
            sys::NB_ERROR_OF_IO => Some(SessionError::Io {
                status: Status(error.status),
                number: error.number,
            }),
            _ => {
                let (message, interface) = self
                    .lent
                    .texts(error.message_length, error.interface_length);
                let (code, object) = (error.code, error.object_number);
                Some(SessionError::Protocol {
                    code,
                    object,
                    interface,
                    message,
                })
            }
        }
    }

    /// The next object with data that was destroyed, with its data, the oldest first.
    #[inline]
    pub(crate) fn next_note(&mut self) -> Option<(RawObjectId, u64)> {
        let (mut object, mut data) = (RawObjectId::default(), 0);
        answer(sys::nb_client_next_note(
            &mut self.place,
            &mut object,
            &mut data,
        ))
        .ok()?;
        Some((object, data))
    }

    /// Closes the descriptors that the session had and will not hand out.
    pub(crate) fn close_dropped(&mut self) {
        let mut number = -1;
        while self.descriptors > 0
            && sys::nb_client_next_dropped(&mut self.place, &mut number) == sys::NB_OK
        {
            if number != NO_DESCRIPTOR {
                self.descriptors -= 1;
                // SAFETY: the session has just handed it out.
                drop(unsafe { take_back(number) });
            }
        }
    }
}

impl Drop for Client {
    /// Takes the descriptors out that the session still has, and ends it.
    fn drop(&mut self) {
        self.receive_failed(Errno::PIPE);
        let mut event = Event::default();
        loop {
            match self.next_event(&mut event, &mut Arguments::new(), |_, _| ()) {
                Ok(()) => {
                    let data = (event.created.number != 0).then_some(0);
                    if self.finish_event(data).is_err() {
                        break;
                    }
                }
                Err(Status::OPEN) => {
                    if self.finish_event(None).is_err() && self.finish_event(Some(0)).is_err() {
                        break;
                    }
                }
                Err(_) => break,
            }
        }
        self.close_dropped();
        sys::nb_client_end(&mut self.place);
    }
}

#[cfg(test)]
mod tests {
    use std::io::Read;
    use std::os::fd::AsFd;
    use std::os::unix::net::UnixStream;

    use super::*;
    use crate::library::FIRST_TRY;
    use crate::protocol::Argument;

    #[test]
    fn little_is_copied_for_a_socket_that_is_full() {
        let (ours, mut theirs) = UnixStream::pair().unwrap();
        let mut client = Client::new();
        let sync = Request {
            sender: client.display(),
            has_data: 1,
            ..Request::default()
        };
        let mut message = Outgoing::default();
        for _ in 0..200_000 {
            let new = Argument::<(), _>::NewId(());
            message.set(&[new], |()| RawObjectId::default()).unwrap();
            client.send_request(&sync, &mut message).unwrap();
        }
        client.flush().unwrap();
        while client.send(ours.as_fd()).is_ok() {}
        // How many bytes the session wrote.
        let copied = |client: &mut Client| {
            with_transit(|transit| transit.receiving().0.fill(0xAA));
            let sent = client.send(ours.as_fd());
            let count = with_transit(|transit| {
                let bytes = transit.receiving().0;
                let left = bytes.iter().rev().take_while(|&&byte| byte == 0xAA);
                bytes.len() - left.count()
            });
            (count, sent)
        };
        assert_eq!(copied(&mut client), (FIRST_TRY, Err(Errno::AGAIN)));
        theirs.read_exact(&mut [0; 200_000]).unwrap();
        assert_eq!(copied(&mut client), (FIRST_TRY, Ok(Sent::Some)));
        let (count, _) = copied(&mut client);
        assert_eq!(count, sys::NB_MOST_BYTES);
    }
}
