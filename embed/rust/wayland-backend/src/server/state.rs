//! The server's state: the core, and the program's handlers.

use std::{
    any::Any,
    collections::{HashMap, VecDeque},
    fmt, mem,
    os::fd::OwnedFd,
    sync::{atomic::AtomicUsize, Arc, Mutex, MutexGuard, PoisonError},
};

use numbyroga_sys as sys;
use smallvec::SmallVec;

use super::{
    core::{Connection, Core, Ended},
    handle::raw_hidden,
    ClientData, ClientId, GlobalHandler, GlobalId, GlobalInfo, Handle, InvalidId, ObjectData,
    ObjectId,
};
use crate::{
    data::Slab,
    library::{Arguments, RawClientId, Status},
    protocol::{Argument, Interface, Message, ANONYMOUS_INTERFACE},
    table::BadInterface,
};

/// Locks the state.
///
/// No code of the program runs while it is locked, and each change of it is whole. So a lock that a panic has poisoned
/// is as good as another one.
pub(super) fn lock<S: ?Sized>(state: &Mutex<S>) -> MutexGuard<'_, S> {
    state.lock().unwrap_or_else(PoisonError::into_inner)
}

/// What the program keeps for an object.
pub(super) type Data<D> = Arc<dyn ObjectData<D>>;

/// Asks a global's handler whether a client sees it.
pub(super) type View = Box<dyn Fn(ClientId, &Arc<dyn ClientData>) -> bool>;

/// A state of some program's type.
pub(super) trait AnyState: downcast_rs::Downcast {
    fn core(&mut self) -> &mut Core;

    /// The globals, and what to ask for each.
    fn views(&self) -> Vec<(GlobalId, View)>;

    fn global_info(&mut self, id: &GlobalId) -> Option<GlobalInfo>;

    fn object_data_any(&mut self, id: &ObjectId) -> Option<Arc<dyn Any + Send + Sync>>;
}

downcast_rs::impl_downcast!(AnyState);

struct Global<D: 'static> {
    serial: u64,
    interface: &'static Interface,
    handler: Arc<dyn GlobalHandler<D>>,
}

pub(super) struct State<D: 'static> {
    pub(super) core: Core,
    objects: Slab<Data<D>>,
    /// By name.
    globals: Vec<Option<Global<D>>>,
    /// Objects that are gone. A dispatch tells the program of them.
    ended: VecDeque<(Data<D>, ObjectId)>,
    /// The interface of the object that the last request or bind makes, if it makes one.
    created: &'static Interface,
    /// The handler of the last request or bind has given data to the object that it makes, before it answered others.
    is_given: bool,
}

impl<D> AnyState for State<D> {
    fn core(&mut self) -> &mut Core {
        &mut self.core
    }

    fn views(&self) -> Vec<(GlobalId, View)> {
        let named = self.globals.iter().enumerate();
        named
            .filter_map(|(name, global)| {
                let Global {
                    serial, handler, ..
                } = global.as_ref()?;
                let (id, handler) = (
                    GlobalId {
                        name: name as u32,
                        serial: *serial,
                    },
                    handler.clone(),
                );
                let asked = id.clone();
                let view: View =
                    Box::new(move |client, data| handler.can_view(client, data, asked.clone()));
                Some((id, view))
            })
            .collect()
    }

    fn global_info(&mut self, id: &GlobalId) -> Option<GlobalInfo> {
        let interface = self.global(id)?.interface;
        let info = self.core.server.global_info(&id.raw())?;
        Some(GlobalInfo {
            interface,
            version: info.version,
            disabled: info.is_disabled != 0,
        })
    }

    fn object_data_any(&mut self, id: &ObjectId) -> Option<Arc<dyn Any + Send + Sync>> {
        self.object_data(id).map(|object| object.into_any_arc())
    }
}

/// Whose handler is to be called.
pub(super) enum Called<D: 'static> {
    /// An object's, for a request.
    Object(Data<D>),
    Global(Box<Bound<D>>),
}

/// A global that was bound.
pub(super) struct Bound<D: 'static> {
    pub(super) handler: Option<Arc<dyn GlobalHandler<D>>>,
    pub(super) global: GlobalId,
    pub(super) object: ObjectId,
}

/// What the program does not need any more. It is to be dropped when the state is not locked.
pub(super) type Unused<D> = SmallVec<[Data<D>; 2]>;

/// A handler that answered what does not fit its request.
pub(super) enum Misuse {
    NoData(ObjectId),
    UnexpectedData,
}

impl fmt::Display for Misuse {
    fn fmt(&self, f: &mut fmt::Formatter<'_>) -> fmt::Result {
        match self {
            Misuse::NoData(object) => {
                write!(
                    f,
                    "Callback creating object {object} did not provide any object data."
                )
            }
            Misuse::UnexpectedData => {
                f.write_str("An object data was returned from a callback not creating any object")
            }
        }
    }
}

/// Why an object or a global was not made.
pub(super) enum NotMade {
    NoClient,
    Bad(BadInterface),
    Refused(Status),
}

impl<D> State<D> {
    pub(super) fn new(poll: Arc<OwnedFd>, ends: Arc<AtomicUsize>) -> State<D> {
        State {
            core: Core::new(poll, ends),
            objects: Slab::new(),
            globals: Vec::new(),
            ended: VecDeque::new(),
            created: &ANONYMOUS_INTERFACE,
            is_given: false,
        }
    }

    // ---- Objects

    /// An object's data. Those of an object that has none do nothing.
    pub(super) fn object_data(&mut self, id: &ObjectId) -> Option<Data<D>> {
        let raw = id.raw();
        let key = self.core.server.object_data(&raw);
        if let Some(object) = key.and_then(|key| self.objects.get(key)) {
            return Some(object.clone());
        }
        self.core
            .server
            .object_info(&raw)
            .map(|_| Arc::new(NoData) as _)
    }

    /// Gives an object other data, if it is there. What is not used any more is answered besides.
    pub(super) fn set_object_data(
        &mut self,
        id: &ObjectId,
        object: Data<D>,
    ) -> (Result<(), InvalidId>, Option<Data<D>>) {
        let raw = id.raw();
        let key = self.core.server.object_data(&raw);
        if let Some(place) = key.and_then(|key| self.objects.get_mut(key)) {
            return (Ok(()), Some(mem::replace(place, object)));
        }
        let Some(info) = self.core.server.object_info(&raw) else {
            return (Err(InvalidId), Some(object));
        };
        let key = self.objects.insert(object);
        if self.core.server.set_object_data(&raw, key).is_err() {
            return (Err(InvalidId), self.objects.remove(key));
        }
        self.core.names.keep(id.interface, info.interface, key);
        self.is_given |= *id == self.core.id(&self.core.action.created, self.created);
        (Ok(()), None)
    }

    /// Makes an object of the server. What is not used is answered besides.
    pub(super) fn make_object(
        &mut self,
        client: &ClientId,
        interface: &'static Interface,
        version: u32,
        object: Data<D>,
    ) -> (Result<ObjectId, NotMade>, Option<Data<D>>) {
        let row = match self.core.row(interface) {
            Ok(row) => row,
            Err(bad) => return (Err(NotMade::Bad(bad)), Some(object)),
        };
        let key = self.objects.insert(object);
        let status = match self
            .core
            .server
            .create_object(&client.raw(), row, version, key)
        {
            Ok(raw) => {
                let id = self.core.id(&raw, interface);
                self.core.names.keep(interface, row, key);
                return (Ok(id), None);
            }
            Err(status) => status,
        };
        let why = match status {
            Status::INVALID_ID => NotMade::NoClient,
            status => NotMade::Refused(status),
        };
        (Err(why), self.objects.remove(key))
    }

    /// Puts the objects that are gone, as far as the session has told of them, to those that the program is to be told of.
    /// The answer is how many these are.
    pub(super) fn gather_ended(&mut self) -> usize {
        while let Some(ended) = self.core.ended.pop_front() {
            // The program has been told already of an object that ended by its own request: its data are here no more.
            if let Some(object) = self.objects.remove(ended.data) {
                self.ended.push_back((object, ended.object));
            }
        }
        self.ended.len()
    }

    pub(super) fn next_ended(&mut self) -> Option<(Data<D>, ObjectId)> {
        self.ended.pop_front()
    }

    // ---- Globals

    /// Makes a global, if `id` is the next one's and it is known of each client whether it sees the global. The error says
    /// why it cannot be made at all.
    pub(super) fn make_global(
        &mut self,
        interface: &'static Interface,
        version: u32,
        handler: &Arc<dyn GlobalHandler<D>>,
        id: &GlobalId,
        seen: &HashMap<ClientId, bool>,
    ) -> Result<bool, NotMade> {
        let row = self.core.row(interface).map_err(NotMade::Bad)?;
        let clients = self.core.clients();
        if self.core.next_global().as_ref() != Ok(id)
            || clients.iter().any(|(it, _)| !seen.contains_key(it))
        {
            return Ok(false);
        }
        let hidden = raw_hidden(seen, ClientId::raw);
        let made = self.core.server.create_global(row, version, 0, &hidden);
        made.map_err(NotMade::Refused)?;
        self.core.take_notes();
        let name = id.name as usize;
        if self.globals.len() <= name {
            self.globals.resize_with(name + 1, || None);
        }
        let handler = handler.clone();
        self.globals[name] = Some(Global {
            serial: id.serial,
            interface,
            handler,
        });
        Ok(true)
    }

    fn global(&self, id: &GlobalId) -> Option<&Global<D>> {
        self.globals
            .get(id.name as usize)?
            .as_ref()
            .filter(|global| global.serial == id.serial)
    }

    pub(super) fn global_handler(&self, id: &GlobalId) -> Option<Arc<dyn GlobalHandler<D>>> {
        self.global(id).map(|global| global.handler.clone())
    }

    /// Removes a global. Its handler is to be dropped when the state is not locked.
    pub(super) fn remove_global(&mut self, id: &GlobalId) -> Option<Arc<dyn GlobalHandler<D>>> {
        self.global(id)?;
        self.core.remove_global(id);
        self.globals[id.name as usize]
            .take()
            .map(|global| global.handler)
    }

    // ---- Requests

    /// Whose handler is to be called for the next thing that the client asks: it is in `core.action`. The arguments of a
    /// request are appended to `args`.
    #[inline]
    pub(super) fn next_call(
        &mut self,
        client: &RawClientId,
        args: &mut Arguments<ObjectId>,
    ) -> Result<Called<D>, Status> {
        self.core.next_action(client, args)?;
        self.is_given = false;
        let action = &self.core.action;
        if action.kind == sys::NB_BIND {
            return Ok(self.bind());
        }
        let object = match self.objects.get(action.data) {
            Some(object) => object.clone(),
            None => Arc::new(NoData),
        };
        if action.created.number != 0 {
            self.created = created_in(args);
        }
        Ok(Called::Object(object))
    }

    /// Whether the request that was handed out last neither makes nor ends an object.
    #[inline]
    pub(super) fn is_plain(&self) -> bool {
        self.core.action.created.number == 0 && !self.is_last()
    }

    /// Whether the request that was handed out last ends its sender.
    #[inline]
    pub(super) fn is_last(&self) -> bool {
        self.core.action.is_destructor != 0
    }

    #[cold]
    fn bind(&mut self) -> Called<D> {
        let action = &self.core.action;
        let global = GlobalId::of(&action.global);
        let bound = self.global(&global);
        let object = match bound {
            Some(bound) => self.core.id(&action.created, bound.interface),
            None => self.core.names.id(&action.created, 0),
        };
        let handler = bound.map(|bound| bound.handler.clone());
        self.created = object.interface;
        Called::Global(Box::new(Bound {
            handler,
            global,
            object,
        }))
    }

    /// Finishes the request or bind of the client whose handler was called last, by what that answered. What is not used any
    /// more is put to `unused`.
    pub(super) fn finish(
        &mut self,
        client: &RawClientId,
        answer: Option<Data<D>>,
        is_sender_told: bool,
        unused: &mut Unused<D>,
    ) -> Option<Misuse> {
        let action = &self.core.action;
        let sender = action.data;
        let misuse = if action.created.number != 0 {
            self.finish_making(client, answer, unused)
        } else {
            let is_last = self.is_last();
            let finished = self.core.server.finish_request(client, None, is_last);
            debug_assert!(
                matches!(finished, Ok(_) | Err(Status::INVALID_ID)),
                "{finished:?}"
            );
            let misuse = answer.is_some().then_some(Misuse::UnexpectedData);
            unused.extend(answer);
            misuse
        };
        if is_sender_told {
            if let Some(object) = self.forget(sender) {
                unused.push(object);
            }
        }
        misuse
    }

    /// The same for a request that neither makes nor ends an object, and was not answered by data.
    #[inline]
    pub(super) fn finish_plain(&mut self, client: &RawClientId) {
        let finished = self.core.server.finish_request(client, None, false);
        debug_assert!(
            matches!(finished, Ok(_) | Err(Status::INVALID_ID)),
            "{finished:?}"
        );
    }

    /// Finishes a request or bind that made an object.
    fn finish_making(
        &mut self,
        client: &RawClientId,
        answer: Option<Data<D>>,
        unused: &mut Unused<D>,
    ) -> Option<Misuse> {
        let mut is_told = false;
        if mem::take(&mut self.is_given) {
            match self.core.server.object_data(&self.core.action.created) {
                Some(key) => unused.extend(self.forget(key)),
                // It has ended already: the next clean-up tells the data that it had.
                None => is_told = true,
            }
        }
        let Some(object) = answer else {
            // A client that was killed needs no data for its new object.
            let is_last = self.is_last();
            let finished = self.core.server.finish_request(client, None, is_last);
            if finished.is_err() {
                let id = self.core.id(&self.core.action.created, self.created);
                self.give(client, Arc::new(NoData), is_told, unused);
                return Some(Misuse::NoData(id));
            }
            return None;
        };
        self.give(client, object, is_told, unused);
        None
    }

    /// Finishes with the data of the object that was made. If that has ended already, the next clean-up tells the data so,
    /// unless `is_told` says that it tells other data.
    fn give(
        &mut self,
        client: &RawClientId,
        object: Data<D>,
        is_told: bool,
        unused: &mut Unused<D>,
    ) {
        let key = self.objects.insert(object);
        let Core {
            server,
            names,
            action,
            ended,
            ..
        } = &mut self.core;
        let answer = match action.kind == sys::NB_BIND {
            true => server.finish_bind(client, key),
            false => server.finish_request(client, Some(key), action.is_destructor != 0),
        };
        match answer {
            Ok(true) => names.keep(self.created, action.created.interface, key),
            _ if is_told => unused.extend(self.objects.remove(key)),
            _ => ended.push_back(Ended {
                object: ObjectId::of(&action.created, self.created, names.mark),
                data: key,
            }),
        }
    }

    fn forget(&mut self, key: u64) -> Option<Data<D>> {
        self.core.names.forget(key);
        self.objects.remove(key)
    }

    /// Whether [`State::clean`] and [`State::gather_ended`] have nothing to do, and the program knows all.
    #[inline]
    pub(super) fn is_clean(&self) -> bool {
        self.core.is_clean() && self.ended.is_empty()
    }

    /// Takes the clients out that were killed. They are to be dropped after the program was told of them.
    pub(super) fn clean(&mut self) -> Vec<Connection> {
        self.core.take_killed()
    }
}

/// The interface of the object that a request makes: one of its arguments.
fn created_in(args: &Arguments<ObjectId>) -> &'static Interface {
    let created = args.iter().find_map(|argument| match argument {
        Argument::NewId(object) => Some(object.interface),
        _ => None,
    });
    created.expect("what a request makes is among its arguments")
}

/// The data of objects that the program has given none: the display, registries, and an object whose handler panicked
/// when it was made.
struct NoData;

impl<D> ObjectData<D> for NoData {
    fn request(
        self: Arc<Self>,
        _: &Handle,
        _: &mut D,
        _: ClientId,
        msg: Message<ObjectId, OwnedFd>,
    ) -> Option<Data<D>> {
        panic!("Received a message on an uninitialized object: {msg:?}");
    }

    fn destroyed(self: Arc<Self>, _: &Handle, _: &mut D, _: ClientId, _: ObjectId) {}

    fn debug(&self, f: &mut fmt::Formatter<'_>) -> fmt::Result {
        f.debug_struct("NoData").finish()
    }
}
