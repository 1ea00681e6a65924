//! Handles of a server.

use std::{
    any::Any,
    collections::HashMap,
    ffi::CString,
    fmt, io,
    os::{fd::RawFd, unix::net::UnixStream},
    sync::{Arc, Mutex, Weak},
};

use super::{
    core::Core,
    state::{lock, AnyState, NotMade, State},
    ClientData, ClientId, Credentials, DisconnectReason, GlobalHandler, GlobalId, GlobalInfo,
    InvalidId, ObjectData, ObjectId,
};
use crate::{
    library::Status,
    panics::Panics,
    protocol::{Interface, Message, ObjectInfo},
};

/// A handle of a server: all that can be done with it but reading.
///
/// It keeps the server's state alive. Where two threads use handles of one server, one waits for the other. While one of
/// them calls a [`ClientData`], another one whose call inserts or ends a client waits, so that clients are told in order. No
/// thread waits for other handlers of another one.
///
/// # Panics
///
/// The calls with a type parameter `D` panic if it is not that of the [`Backend`][super::Backend].
#[derive(Clone)]
pub struct Handle {
    pub(super) state: Arc<Mutex<dyn AnyState + Send>>,
}

/// A [`Handle`] that does not keep the server's state alive.
#[derive(Clone)]
pub struct WeakHandle {
    state: Weak<Mutex<dyn AnyState + Send>>,
}

impl fmt::Debug for Handle {
    fn fmt(&self, f: &mut fmt::Formatter<'_>) -> fmt::Result {
        f.debug_struct("Handle").finish_non_exhaustive()
    }
}

impl fmt::Debug for WeakHandle {
    fn fmt(&self, f: &mut fmt::Formatter<'_>) -> fmt::Result {
        f.debug_struct("WeakHandle").finish_non_exhaustive()
    }
}

impl WeakHandle {
    /// The handle, or `None` if the server's state is gone: its [`Backend`][super::Backend] and all of its handles were dropped.
    #[inline]
    pub fn upgrade(&self) -> Option<Handle> {
        self.state.upgrade().map(|state| Handle { state })
    }
}

impl Handle {
    /// A handle that does not keep the server's state alive.
    #[inline]
    pub fn downgrade(&self) -> WeakHandle {
        WeakHandle {
            state: Arc::downgrade(&self.state),
        }
    }

    /// What ids of the server's objects have of it.
    #[cfg(feature = "server_system")]
    pub(crate) fn mark(&self) -> super::Mark {
        lock(&*self.state).core().names.mark
    }

    /// An object's number, interface and version.
    ///
    /// # Errors
    ///
    /// The object is gone, or null.
    #[inline]
    pub fn object_info(&self, id: ObjectId) -> Result<ObjectInfo, InvalidId> {
        let found = self.with_core(|core| core.server.object_info(&id.raw()));
        let info = found.ok_or(InvalidId)?;
        Ok(ObjectInfo {
            id: info.number,
            interface: id.interface,
            version: info.version,
        })
    }

    /// Inserts a client that is connected by the stream.
    ///
    /// Each global's [`GlobalHandler::can_view`] is asked, and then [`ClientData::initialized`] is called. The client is
    /// read when that has returned.
    ///
    /// # Errors
    ///
    /// The server cannot wait for the stream: the system's error. The client is killed then.
    #[inline]
    pub fn insert_client(
        &mut self,
        stream: UnixStream,
        data: Arc<dyn ClientData>,
    ) -> io::Result<ClientId> {
        // What the handlers said of the client that comes next.
        let mut next = None;
        let mut seen = HashMap::new();
        // Until its data know of the client, nobody tells them that it is gone.
        let news = lock(&*self.state).core().news.clone();
        let telling = news.begin(u64::MAX);
        let inserted = loop {
            let mut state = lock(&*self.state);
            let id = match state.core().next_client() {
                Ok(id) => id,
                Err(status) => break Err(status),
            };
            if next.as_ref() != Some(&id) {
                seen.clear();
                next = Some(id.clone());
            }
            let mut views = state.views();
            views.retain(|(global, _)| !seen.contains_key(global));
            if views.is_empty() {
                let hidden = raw_hidden(&seen, GlobalId::raw);
                break state.core().insert(stream, data.clone(), &hidden);
            }
            drop(state);
            for (global, view) in views {
                let is_seen = view(id.clone(), &data);
                seen.insert(global, is_seen);
            }
        };
        let id = match inserted {
            Ok(id) => id,
            Err(status) => panic!("the server can have no more clients: {status}"),
        };
        let mut panics = Panics::default();
        panics.catch(|| data.initialized(id.clone()));
        let watched = lock(&*self.state).core().watch(&id);
        if let Some(telling) = telling {
            panics.catch(|| telling.end());
        }
        panics.go_on();
        watched.map(|()| id)
    }

    /// The client of an object.
    ///
    /// # Errors
    ///
    /// The client is gone. The object is not looked for.
    #[inline]
    pub fn get_client(&self, id: ObjectId) -> Result<ClientId, InvalidId> {
        let client = id.client();
        if self.with_core(|core| core.connection(&client).is_some()) {
            Ok(client)
        } else {
            Err(InvalidId)
        }
    }

    /// A client's data.
    ///
    /// # Errors
    ///
    /// The client is gone.
    #[inline]
    pub fn get_client_data(&self, id: ClientId) -> Result<Arc<dyn ClientData>, InvalidId> {
        self.with_core(|core| core.connection(&id).map(|it| it.data.clone()))
            .ok_or(InvalidId)
    }

    /// Who is at the other end of a client's socket, as the system tells it.
    ///
    /// # Errors
    ///
    /// The client is gone.
    ///
    /// # Panics
    ///
    /// The system does not tell.
    #[inline]
    pub fn get_client_credentials(&self, id: ClientId) -> Result<Credentials, InvalidId> {
        self.with_core(|core| core.connection(&id).map(|it| it.credentials()))
            .ok_or(InvalidId)?
            .map_err(|error| panic!("the system does not tell who the client is: {error}"))
    }

    /// Calls the closure for each client that is served.
    ///
    /// The clients are those that are there at the call: the closure may insert and kill clients.
    #[inline]
    pub fn with_all_clients(&self, f: impl FnMut(ClientId)) {
        let clients = self.with_core(|core| core.server.clients());
        clients.iter().map(ClientId::of).for_each(f);
    }

    /// Calls the closure for each object of the client, by ascending number.
    ///
    /// The objects are those that are there at the call: the closure may make and destroy objects.
    ///
    /// # Errors
    ///
    /// The client is gone.
    #[inline]
    pub fn with_all_objects_for(
        &self,
        client_id: ClientId,
        f: impl FnMut(ObjectId),
    ) -> Result<(), InvalidId> {
        let objects = self
            .with_core(|core| core.objects(&client_id))
            .ok_or(InvalidId)?;
        objects.into_iter().for_each(f);
        Ok(())
    }

    /// The client's object that has this number in the protocol.
    ///
    /// # Errors
    ///
    /// The client is gone, or has no such object, or that has another interface.
    #[inline]
    pub fn object_for_protocol_id(
        &self,
        client_id: ClientId,
        interface: &'static Interface,
        protocol_id: u32,
    ) -> Result<ObjectId, InvalidId> {
        self.with_core(|core| core.object_for_protocol_id(&client_id, interface, protocol_id))
            .ok_or(InvalidId)
    }

    /// Makes an object for a client, with a number of the server's.
    ///
    /// The client has to hear of it at once: by an event that has it as [`Argument::NewId`].
    ///
    /// # Errors
    ///
    /// The client is gone.
    ///
    /// [`Argument::NewId`]: crate::protocol::Argument::NewId
    #[inline]
    pub fn create_object<D: 'static>(
        &self,
        client_id: ClientId,
        interface: &'static Interface,
        version: u32,
        data: Arc<dyn ObjectData<D>>,
    ) -> Result<ObjectId, InvalidId> {
        let (made, unused) = self.with_state::<D, _>("create_object", |state| {
            state.make_object(&client_id, interface, version, data)
        });
        drop(unused); // here, where the state is not locked
        made.map_err(|why| match why {
            NotMade::NoClient => InvalidId,
            NotMade::Bad(bad) => panic!("{bad}"),
            NotMade::Refused(status) => {
                panic!("An object of {} cannot be made: {status}", interface.name)
            }
        })
    }

    /// Destroys an object without a message. If its number is one of the client's own, the client is told that it is
    /// free. [`ObjectData::destroyed`] is called by the next dispatch that reads something.
    ///
    /// It is for objects that end by something else than a destructor: those end by themselves.
    ///
    /// # Errors
    ///
    /// The object is gone, or null, or the display.
    pub fn destroy_object<D: 'static>(&self, id: &ObjectId) -> Result<(), InvalidId> {
        self.with_state::<D, _>("destroy_object", |state| state.core.destroy_object(id))
    }

    /// Sends an event to the client of `msg.sender_id`. It waits until it is flushed ([`Handle::flush`]).
    ///
    /// Descriptors are duplicated. An event that is a destructor ends its sender. A client that was killed is sent
    /// nothing, and that is no error. One for which there is no room any more is killed.
    ///
    /// # Errors
    ///
    /// The sender is gone, or an object among the arguments is.
    ///
    /// # Panics
    ///
    /// The sender's interface has no event of the opcode; or the arguments are not those of the event: their number,
    /// the kind of one, an object of another interface or of another client, or a null object where none may be.
    #[inline]
    pub fn send_event(&self, msg: Message<ObjectId, RawFd>) -> Result<(), InvalidId> {
        let answer = self.with_core(|core| core.send_event(&msg));
        match answer {
            Ok(()) => Ok(()),
            Err(Status::INVALID_ID) => Err(InvalidId),
            Err(status) => panic!("{}", misuse_of(&msg, status)),
        }
    }

    /// An object's data.
    ///
    /// # Errors
    ///
    /// The object is gone, or null.
    #[inline]
    pub fn get_object_data<D: 'static>(
        &self,
        id: ObjectId,
    ) -> Result<Arc<dyn ObjectData<D>>, InvalidId> {
        self.with_state::<D, _>("get_object_data", |state| state.object_data(&id))
            .ok_or(InvalidId)
    }

    /// An object's data, for a downcast.
    ///
    /// # Errors
    ///
    /// The object is gone, or null.
    #[inline]
    pub fn get_object_data_any(
        &self,
        id: ObjectId,
    ) -> Result<Arc<dyn Any + Send + Sync>, InvalidId> {
        lock(&*self.state).object_data_any(&id).ok_or(InvalidId)
    }

    /// Gives an object other data.
    ///
    /// # Errors
    ///
    /// The object is gone, or null.
    #[inline]
    pub fn set_object_data<D: 'static>(
        &self,
        id: ObjectId,
        data: Arc<dyn ObjectData<D>>,
    ) -> Result<(), InvalidId> {
        let (answer, unused) =
            self.with_state::<D, _>("set_object_data", |state| state.set_object_data(&id, data));
        drop(unused); // here, where the state is not locked
        answer
    }

    /// Tells a client that it broke the rules of an object, and kills it.
    ///
    /// If the object is gone, its client is killed and not told why.
    #[inline]
    pub fn post_error(&self, object_id: ObjectId, error_code: u32, message: CString) {
        let message = message.as_bytes();
        self.with_client(&object_id.client(), |core| {
            core.post_error(&object_id, error_code, message);
        });
    }

    /// Kills a client. It is told nothing; [`ClientData::disconnected`] is called with the reason.
    ///
    /// A client that was killed before is not killed again.
    #[inline]
    pub fn kill_client(&self, client_id: ClientId, reason: DisconnectReason) {
        self.with_client(&client_id, |core| core.kill(&client_id, reason));
    }

    /// Makes a global, and announces it to the clients that see it ([`GlobalHandler::can_view`]).
    ///
    /// # Panics
    ///
    /// The version is above the interface's.
    #[inline]
    pub fn create_global<D: 'static>(
        &self,
        interface: &'static Interface,
        version: u32,
        handler: Arc<dyn GlobalHandler<D>>,
    ) -> GlobalId {
        assert!(
            version <= interface.version,
            "Cannot create global {} version {version}: maximum supported version is {}",
            interface.name,
            interface.version
        );
        // What the handler said of the clients that are there.
        let mut next = None;
        let mut seen = HashMap::new();
        loop {
            let (id, mut clients) = self.with_core(|core| (core.next_global(), core.clients()));
            let id =
                id.unwrap_or_else(|status| panic!("the server can have no more globals: {status}"));
            if next.as_ref() != Some(&id) {
                seen.clear();
                next = Some(id.clone());
            }
            clients.retain(|(client, _)| !seen.contains_key(client));
            for (client, data) in clients {
                let is_seen = handler.can_view(client.clone(), &data, id.clone());
                seen.insert(client, is_seen);
            }
            let made = self.with_state::<D, _>("create_global", |state| {
                state.make_global(interface, version, &handler, &id, &seen)
            });
            match made {
                Ok(true) => return id,
                Ok(false) => {}
                Err(NotMade::Bad(bad)) => panic!("{bad}"),
                Err(NotMade::NoClient) => unreachable!("a global is no client's"),
                Err(NotMade::Refused(status)) => panic!(
                    "Cannot create global {} version {version}: {status}",
                    interface.name
                ),
            }
        }
    }

    /// Announces a global no more, and tells the clients that it is gone. They may still bind it, since they may have
    /// done so before they hear of it.
    ///
    /// A global that is disabled or removed already stays so.
    #[inline]
    pub fn disable_global<D: 'static>(&self, id: GlobalId) {
        self.with_state::<D, _>("disable_global", |state| state.core.disable_global(&id))
    }

    /// Removes a global, and drops its handler. A client that binds it breaks the protocol.
    ///
    /// Disable it some seconds before, so that no client is killed for a bind that was on its way.
    #[inline]
    pub fn remove_global<D: 'static>(&self, id: GlobalId) {
        let handler = self.with_state::<D, _>("remove_global", |state| state.remove_global(&id));
        drop(handler); // here, where the state is not locked
    }

    /// What a global offers.
    ///
    /// # Errors
    ///
    /// The global was removed.
    #[inline]
    pub fn global_info(&self, id: GlobalId) -> Result<GlobalInfo, InvalidId> {
        lock(&*self.state).global_info(&id).ok_or(InvalidId)
    }

    /// The name that the client binds the global by, or `None` if it does not see the global, or one of them is gone.
    #[doc(alias = "wl_global_get_name")]
    #[cfg(feature = "libwayland_server_1_22")]
    #[inline]
    pub fn global_name(&self, global: GlobalId, client: ClientId) -> Option<u32> {
        self.with_core(|core| core.server.global_name(&global.raw(), &client.raw()))
    }

    /// A global's handler.
    ///
    /// # Errors
    ///
    /// The global was removed.
    #[inline]
    pub fn get_global_handler<D: 'static>(
        &self,
        id: GlobalId,
    ) -> Result<Arc<dyn GlobalHandler<D>>, InvalidId> {
        self.with_state::<D, _>("get_global_handler", |state| state.global_handler(&id))
            .ok_or(InvalidId)
    }

    /// Sends what waits for the client, or for all clients. It does not wait: what a socket does not take is sent by a
    /// later flush.
    ///
    /// # Errors
    ///
    /// The system's error for the client, `WouldBlock` among them. It is none if the client is gone, or if no client is
    /// named.
    pub fn flush(&mut self, client: Option<ClientId>) -> io::Result<()> {
        self.with_core(|core| match client {
            Some(client) => core.flush_client(&client),
            None => {
                core.flush_all();
                Ok(())
            }
        })
    }

    /// Sets how many bytes may wait for clients that are inserted from now on, as [`Self::set_client_max_buffer_size`].
    /// It is 1048576 at first.
    #[cfg(feature = "libwayland_server_1_23")]
    pub fn set_default_max_buffer_size(&self, max_buffer_size: usize) {
        self.with_core(|core| {
            core.server
                .set_default_max_buffer_size(max_buffer_size as u64)
        })
    }

    /// Sets how many bytes may wait for a client. It is rounded up to a power of two of at least 4096. A client for
    /// which more would wait is killed.
    #[cfg(feature = "libwayland_server_1_23")]
    pub fn set_client_max_buffer_size(&self, client: ClientId, max_buffer_size: usize) {
        self.with_core(|core| {
            core.server
                .set_max_buffer_size(&client.raw(), max_buffer_size as u64);
        })
    }

    /// Calls the closure with the core, and tells the program then what came out of it.
    #[inline]
    fn with_core<R>(&self, call: impl FnOnce(&mut Core) -> R) -> R {
        let mut state = lock(&*self.state);
        let core = state.core();
        let before = core.put();
        let answer = call(core);
        if let Some(due) = core.due(before) {
            drop(state);
            due.tell();
        }
        answer
    }

    /// The same, for a call that may end the client. If it has ended before, and another thread tells so, this waits.
    fn with_client(&self, client: &ClientId, call: impl FnOnce(&mut Core)) {
        let mut state = lock(&*self.state);
        let core = state.core();
        let before = core.put();
        call(core);
        let due = core.due_of(client, before);
        drop(state);
        if let Some(due) = due {
            due.tell();
        }
    }

    /// The same with the state of a program's type. `name` is the method that was called.
    fn with_state<D: 'static, R>(&self, name: &str, call: impl FnOnce(&mut State<D>) -> R) -> R {
        let mut state = lock(&*self.state);
        let Some(typed) = (&mut *state as &mut dyn AnyState).downcast_mut::<State<D>>() else {
            drop(state);
            panic!("Wrong type parameter passed to Handle::{name}().");
        };
        let before = typed.core.put();
        let answer = call(typed);
        let due = typed.core.due(before);
        drop(state);
        if let Some(due) = due {
            due.tell();
        }
        answer
    }
}

/// What is not seen, as the library takes it.
pub(super) fn raw_hidden<Id, Raw>(seen: &HashMap<Id, bool>, raw: impl Fn(&Id) -> Raw) -> Vec<Raw> {
    seen.iter()
        .filter(|(_, &is_seen)| !is_seen)
        .map(|(id, _)| raw(id))
        .collect()
}

/// What is wrong with an event that the library refused.
#[cold]
fn misuse_of(message: &Message<ObjectId, RawFd>, status: Status) -> String {
    let Message {
        sender_id,
        opcode,
        args,
    } = message;
    let Some(event) = sender_id.interface.events.get(usize::from(*opcode)) else {
        return format!("Unknown opcode {opcode} for object {sender_id}.");
    };
    let name = event.name;
    match status {
        Status::BAD_SIGNATURE => format!(
            "Unexpected signature for event {sender_id}.{name}: expected {:?}, got {args:?}.",
            event.signature
        ),
        _ => format!("Event {sender_id}.{name} cannot be sent: {status}. Got {args:?}."),
    }
}
