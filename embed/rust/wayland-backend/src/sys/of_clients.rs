//! The pointers of connections of clients, and of their objects.

use std::sync::{Arc, LazyLock};

use wayland_sys::client::{wl_display, wl_proxy};

use super::names::{Address, Names, Owner};
use crate::client::{Backend, InvalidId, ObjectData, ObjectId, WeakBackend};
use crate::protocol::{same_interface, Interface};

static NAMES: LazyLock<Names<WeakBackend>> = LazyLock::new(Names::default);

impl Owner for WeakBackend {
    type Id = ObjectId;

    fn has(&self, id: &ObjectId) -> bool {
        let backend = self.upgrade();
        backend.is_some_and(|backend| backend.info(id.clone()).is_ok())
    }

    fn address_of(id: &ObjectId) -> Address {
        id.mark()
    }
}

/// A connection is open. Its pointer is that of its display's id, too.
pub(crate) fn open_connection(backend: &Backend) {
    let display = backend.display_id();
    NAMES.open(display.mark(), backend.downgrade(), Some(display));
}

/// The connection of this mark is closed.
pub(crate) fn close_connection(mark: Address) {
    NAMES.close(mark);
}

/// The object that a pointer names, if it is there and of this interface.
fn object(interface: &'static Interface, pointer: *mut wl_proxy) -> Result<ObjectId, InvalidId> {
    let found = NAMES.object(Address::of(pointer));
    found
        .filter(|id| same_interface(id.interface(), interface))
        .ok_or(InvalidId)
}

impl Backend {
    /// A pointer that names the connection, for [`Backend::from_foreign_display`] in another crate of the program. It is that
    /// of the display's id, too, and no other connection's as long as the program runs.
    ///
    /// No memory is behind it: C that follows it ends the program by SIGSEGV.
    pub fn display_ptr(&self) -> *mut wl_display {
        self.display_id().mark().pointer()
    }

    /// The connection that a pointer of [`Backend::display_ptr`] names.
    ///
    /// Both are the same connection, which stays open until the last [`Backend`] of it is dropped. Whoever reads hands
    /// events to the data of all objects, and [`Backend::prepare_read`] tells other threads of it.
    ///
    /// # Safety
    ///
    /// Nothing is asked for: the pointer is looked up, and not followed. It is unsafe as the original's is.
    ///
    /// # Panics
    ///
    /// The pointer names no connection that is open in the program. One of libwayland does not.
    pub unsafe fn from_foreign_display(display: *mut wl_display) -> Self {
        let owner = NAMES.owner(Address::of(display));
        owner
            .and_then(|connection| connection.upgrade())
            .unwrap_or_else(|| panic!("{display:p} names no connection of wayland-backend over Numbyroga that is open"))
    }

    /// Gives an object that another crate has made other data, which take its events from now on, and answers its id.
    ///
    /// # Safety
    ///
    /// Nothing is asked for: the pointer is looked up, and not followed. It is unsafe as the original's is.
    ///
    /// # Panics
    ///
    /// The pointer names no object of this connection that is there and of this interface.
    pub unsafe fn manage_object(
        &self,
        interface: &'static Interface,
        proxy: *mut wl_proxy,
        data: Arc<dyn ObjectData>,
    ) -> ObjectId {
        object(interface, proxy)
            .and_then(|id| self.set_data(id.clone(), data).map(|()| id))
            .unwrap_or_else(|InvalidId| {
                panic!("{proxy:p} names no {} of this connection", interface.name)
            })
    }
}

impl ObjectId {
    /// A pointer that names the object, for [`ObjectId::from_ptr`] in another crate of the program. It is no other object's as
    /// long as the program runs. It is null if this is the null id, or the object is destroyed.
    ///
    /// No memory is behind it: C that follows it ends the program by SIGSEGV.
    pub fn as_ptr(&self) -> *mut wl_proxy {
        NAMES.address(self).pointer()
    }

    /// The object that a pointer of [`ObjectId::as_ptr`] names.
    ///
    /// # Safety
    ///
    /// Nothing is asked for: the pointer is looked up, and not followed. It is unsafe as the original's is.
    ///
    /// # Errors
    ///
    /// The object is gone, or of another interface; or the pointer names none, as null and one of libwayland.
    pub unsafe fn from_ptr(
        interface: &'static Interface,
        pointer: *mut wl_proxy,
    ) -> Result<Self, InvalidId> {
        object(interface, pointer)
    }
}

#[cfg(feature = "rwh_06")]
impl rwh_06::HasDisplayHandle for Backend {
    /// The error [`rwh_06::HandleError::NotSupported`]: who takes a handle follows its pointer.
    fn display_handle(&self) -> Result<rwh_06::DisplayHandle<'_>, rwh_06::HandleError> {
        Err(rwh_06::HandleError::NotSupported)
    }
}
