//! A server with one global. Every 10 milliseconds it serves whoever is there.
//!
//! ```text
//! server SOCKET
//! ```

use std::{env, error::Error, sync::Arc, thread::sleep, time::Duration};

use wayland_server::protocol::wl_output::{Request, WlOutput};
use wayland_server::{
    Client, DataInit, Dispatch, Display, DisplayHandle, GlobalDispatch, ListeningSocket, New,
};

struct Server;

impl GlobalDispatch<WlOutput, ()> for Server {
    fn bind(
        _: &mut Self,
        _: &DisplayHandle,
        _: &Client,
        new: New<WlOutput>,
        _: &(),
        init: &mut DataInit<'_, Self>,
    ) {
        init.init(new, ());
    }
}

impl Dispatch<WlOutput, ()> for Server {
    fn request(
        _: &mut Self,
        _: &Client,
        _: &WlOutput,
        _: Request,
        _: &(),
        _: &DisplayHandle,
        _: &mut DataInit<'_, Self>,
    ) {
    }
}

fn main() -> Result<(), Box<dyn Error>> {
    let path = env::args().nth(1).ok_or("usage: server SOCKET")?;
    let listener = ListeningSocket::bind_absolute(path.into())?;
    let mut display = Display::<Server>::new()?;
    display
        .handle()
        .create_global::<Server, WlOutput, ()>(3, ());
    loop {
        while let Some(stream) = listener.accept()? {
            display.handle().insert_client(stream, Arc::new(()))?;
        }
        display.dispatch_clients(&mut Server)?;
        display.flush_clients()?;
        sleep(Duration::from_millis(10));
    }
}
