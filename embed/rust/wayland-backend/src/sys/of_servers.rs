//! The pointers of servers, and of the objects of their clients.

use std::sync::LazyLock;

use wayland_sys::server::{wl_display, wl_resource};

use super::names::{Address, Names, Owner};
use crate::protocol::{same_interface, Interface};
use crate::server::{Handle, InvalidId, ObjectId, WeakHandle};

static NAMES: LazyLock<Names<WeakHandle>> = LazyLock::new(Names::default);

impl Owner for WeakHandle {
    type Id = ObjectId;

    fn has(&self, id: &ObjectId) -> bool {
        let handle = self.upgrade();
        handle.is_some_and(|handle| handle.object_info(id.clone()).is_ok())
    }

    fn address_of(id: &ObjectId) -> Address {
        id.mark()
    }
}

/// A server is there.
pub(crate) fn open_server(handle: &Handle) {
    NAMES.open(handle.mark(), handle.downgrade(), None);
}

/// The server of this mark is gone.
pub(crate) fn close_server(mark: Address) {
    NAMES.close(mark);
}

impl Handle {
    /// A pointer that names the server. It is no other server's as long as the program runs.
    ///
    /// No memory is behind it: C that follows it ends the program by SIGSEGV.
    pub fn display_ptr(&self) -> *mut wl_display {
        self.mark().pointer()
    }
}

impl ObjectId {
    /// A pointer that names the object, for [`ObjectId::from_ptr`] in another crate of the program. It is no other object's as
    /// long as the program runs. It is null if this is the null object, or the object is gone.
    ///
    /// No memory is behind it: C that follows it ends the program by SIGSEGV.
    pub fn as_ptr(&self) -> *mut wl_resource {
        NAMES.address(self).pointer()
    }

    /// The object that a pointer of [`ObjectId::as_ptr`] names.
    ///
    /// # Safety
    ///
    /// Nothing is asked for: the pointer is looked up, and not followed. It is unsafe as the original's is.
    ///
    /// # Errors
    ///
    /// The object is gone, or of another interface; or the pointer names none, as null and one of libwayland.
    pub unsafe fn from_ptr(
        interface: &'static Interface,
        pointer: *mut wl_resource,
    ) -> Result<Self, InvalidId> {
        let found = NAMES.object(Address::of(pointer));
        found
            .filter(|id| same_interface(id.interface(), interface))
            .ok_or(InvalidId)
    }
}
