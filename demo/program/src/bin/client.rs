//! A client that asks for the globals, and says how many there are, or why it ended.
//!
//! ```text
//! client SOCKET
//! ```

use std::{env, error::Error, os::unix::net::UnixStream};

use wayland_client::globals::{registry_queue_init, GlobalListContents};
use wayland_client::protocol::wl_registry::{self, WlRegistry};
use wayland_client::{Connection, Dispatch, QueueHandle};

struct Client;

impl Dispatch<WlRegistry, GlobalListContents> for Client {
    fn event(
        _: &mut Self,
        _: &WlRegistry,
        _: wl_registry::Event,
        _: &GlobalListContents,
        _: &Connection,
        _: &QueueHandle<Self>,
    ) {
    }
}

fn main() -> Result<(), Box<dyn Error>> {
    let path = env::args().nth(1).ok_or("usage: client SOCKET")?;
    let connection = Connection::from_socket(UnixStream::connect(path)?)?;
    match registry_queue_init::<Client>(&connection) {
        Ok((globals, _queue)) => println!("{} globals", globals.contents().clone_list().len()),
        Err(error) => println!("error: {error}"),
    }
    Ok(())
}
