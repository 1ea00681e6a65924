//! The two sides with pointers to their objects, as the features `client_system` and `server_system` of the original bring
//! them.
//!
//! Each connection, server and object has a pointer of its own as long as the program runs. By it the crates of a program
//! tell objects apart, and hand them to each other: one crate's [`Backend::display_ptr`] is another one's
//! [`Backend::from_foreign_display`], and [`ObjectId::as_ptr`] its [`ObjectId::from_ptr`]. winit, smithay-clipboard and what
//! draws by shared memory do so.
//!
//! There is no libwayland behind them, and no memory. So they are not for C: a library that follows one, as those of EGL and
//! Vulkan do, ends the program by SIGSEGV. Pointers of libwayland name nothing here, and are refused.
//!
//! [`Backend::display_ptr`]: crate::client::Backend
//! [`Backend::from_foreign_display`]: crate::client::Backend
//! [`ObjectId::as_ptr`]: crate::client::ObjectId
//! [`ObjectId::from_ptr`]: crate::client::ObjectId

mod names;
#[cfg(feature = "client_system")]
mod of_clients;
#[cfg(feature = "server_system")]
mod of_servers;

pub(crate) use names::Address;
#[cfg(feature = "client_system")]
pub(crate) use of_clients::{close_connection, open_connection};
#[cfg(feature = "server_system")]
pub(crate) use of_servers::{close_server, open_server};

#[cfg(feature = "client_system")]
pub use crate::client;
#[cfg(feature = "server_system")]
pub use crate::server;
