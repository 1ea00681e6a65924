//! The server's side of the protocol: clients, their objects, and globals.
//!
//! A [`Backend`] is the server. It reads what clients ask, calls the program's handlers ([`ObjectData`],
//! [`GlobalHandler`], [`ClientData`]), and sends what the program tells the clients. A [`Handle`] of it goes wherever
//! the program needs to send events, make objects and globals, or look something up: it can be cloned, and used from
//! any thread.
//!
//! No lock is held while a handler runs, so a handler may call everything. A handler that panics leaves a server that
//! can be used: the request that it was called for counts as handled. The panic comes out of the dispatch, when the other
//! handlers were called for what came.

use std::{fmt, os::fd::OwnedFd, sync::Arc};

#[cfg(not(feature = "server_system"))]
use crate::mark::NoMark as Mark;
use crate::protocol::Message;
#[cfg(feature = "server_system")]
use crate::sys::Address as Mark;
pub use crate::types::server::{Credentials, DisconnectReason, GlobalInfo, InitError, InvalidId};

mod backend;
mod core;
mod handle;
mod ids;
mod news;
mod state;

pub use backend::Backend;
pub use handle::{Handle, WeakHandle};
pub use ids::{ClientId, GlobalId, ObjectId};

/// What the program keeps for an object, and how it handles the object's requests.
///
/// The server hands it out as a shared reference, so what changes in it needs a lock or atomics.
pub trait ObjectData<D>: downcast_rs::DowncastSync {
    /// The client sent the object a request.
    ///
    /// If the request makes an object, that is among the arguments as [`Argument::NewId`], and the answer is its data.
    /// Else the answer is `None`.
    ///
    /// # Panics
    ///
    /// The dispatch that called this panics if the request makes an object and the answer is `None`, or the other way
    /// round. A client that the handler killed needs no data for its new object.
    ///
    /// [`Argument::NewId`]: crate::protocol::Argument::NewId
    fn request(
        self: Arc<Self>,
        handle: &Handle,
        data: &mut D,
        client_id: ClientId,
        msg: Message<ObjectId, OwnedFd>,
    ) -> Option<Arc<dyn ObjectData<D>>>;

    /// The object is gone: by a destructor, by [`Handle::destroy_object`], or with its client. It is told once.
    fn destroyed(
        self: Arc<Self>,
        handle: &Handle,
        data: &mut D,
        client_id: ClientId,
        object_id: ObjectId,
    );

    /// How the data look in the output of `{:?}`.
    fn debug(&self, f: &mut fmt::Formatter<'_>) -> fmt::Result {
        f.debug_struct("ObjectData").finish_non_exhaustive()
    }
}

downcast_rs::impl_downcast!(sync ObjectData<D>);

impl<D: 'static> fmt::Debug for dyn ObjectData<D> {
    fn fmt(&self, f: &mut fmt::Formatter<'_>) -> fmt::Result {
        self.debug(f)
    }
}

/// How the program handles that clients bind a global.
pub trait GlobalHandler<D>: downcast_rs::DowncastSync {
    /// Whether the client sees the global. A client that does not is not told of it, and breaks the protocol if it
    /// binds it, as if it was not there.
    ///
    /// It is asked once for each pair of a client and a global: when the client is inserted if the global is there, and
    /// else when the global is created. The one that is new is not there yet when this is called. So the answer should
    /// depend on the client's data and the global alone.
    fn can_view(
        &self,
        _client_id: ClientId,
        _client_data: &Arc<dyn ClientData>,
        _global_id: GlobalId,
    ) -> bool {
        true
    }

    /// A client bound the global: `object_id` is the object that it made by this. The answer is the object's data.
    fn bind(
        self: Arc<Self>,
        handle: &Handle,
        data: &mut D,
        client_id: ClientId,
        global_id: GlobalId,
        object_id: ObjectId,
    ) -> Arc<dyn ObjectData<D>>;

    /// How the handler looks in the output of `{:?}`.
    fn debug(&self, f: &mut fmt::Formatter<'_>) -> fmt::Result {
        f.debug_struct("GlobalHandler").finish_non_exhaustive()
    }
}

downcast_rs::impl_downcast!(sync GlobalHandler<D>);

impl<D: 'static> fmt::Debug for dyn GlobalHandler<D> {
    fn fmt(&self, f: &mut fmt::Formatter<'_>) -> fmt::Result {
        self.debug(f)
    }
}

/// What the program keeps for a client.
pub trait ClientData: downcast_rs::DowncastSync {
    /// The client was inserted.
    fn initialized(&self, _client_id: ClientId) {}

    /// The client is served no more. It is told once, before the client's objects are destroyed.
    fn disconnected(&self, _client_id: ClientId, _reason: DisconnectReason) {}

    /// How the data look in the output of `{:?}`.
    fn debug(&self, f: &mut fmt::Formatter<'_>) -> fmt::Result {
        f.debug_struct("ClientData").finish_non_exhaustive()
    }
}

downcast_rs::impl_downcast!(sync ClientData);

impl fmt::Debug for dyn ClientData {
    fn fmt(&self, f: &mut fmt::Formatter<'_>) -> fmt::Result {
        self.debug(f)
    }
}

impl ClientData for () {}
