//! Clients of wayland-client that do well.

use std::os::fd::AsFd;
use std::os::unix::net::UnixStream;

use trials::process::{file, text_of};
use wayland_client::globals::{
    registry_queue_init, BindError, GlobalError, GlobalList, GlobalListContents,
};
use wayland_client::protocol::{
    wl_buffer::{self, WlBuffer},
    wl_callback::{self, WlCallback},
    wl_compositor::WlCompositor,
    wl_data_device::{self, WlDataDevice},
    wl_data_device_manager::WlDataDeviceManager,
    wl_data_offer::{self, WlDataOffer},
    wl_keyboard::{self, WlKeyboard},
    wl_registry::WlRegistry,
    wl_seat::WlSeat,
    wl_shm::{Format, WlShm},
    wl_shm_pool::WlShmPool,
    wl_surface::WlSurface,
};
use wayland_client::{
    delegate_noop, event_created_child, ConnectError, Connection, Dispatch, DispatchError,
    EventQueue, QueueHandle,
};

use crate::senders::KEYMAP;

const ROUNDS: usize = 30;

/// What came to a client.
#[derive(Default)]
pub struct Got {
    frames: usize,
    released: usize,
    last_offer: usize,
    pub offers: usize,
    pub keymaps: usize,
    pub wrong: Vec<String>,
}

impl Got {
    pub fn add(&mut self, other: &Self) {
        self.offers += other.offers;
        self.keymaps += other.keymaps;
        self.wrong.extend_from_slice(&other.wrong);
    }
}

/// How a client's life went.
pub enum Fate {
    Whole(Got),
    /// It left when it wanted to.
    Left,
    /// The server ended it.
    Ended(String),
}

struct Failed(String);

macro_rules! from_errors {
    ($($error:ty),*) => {$(
        impl From<$error> for Failed {
            fn from(error: $error) -> Self {
                Self(error.to_string())
            }
        }
    )*};
}

from_errors! { ConnectError, GlobalError, BindError, DispatchError }

delegate_noop!(Got: ignore WlCompositor);
delegate_noop!(Got: ignore WlShm);
delegate_noop!(Got: ignore WlSeat);
delegate_noop!(Got: ignore WlSurface);
delegate_noop!(Got: ignore WlShmPool);
delegate_noop!(Got: ignore WlDataDeviceManager);

/// What an event brings.
macro_rules! events {
    ($interface:ty, $data:ty, |$got:ident, $object:ident, $event:ident| $body:expr $(, $child:item)?) => {
        impl Dispatch<$interface, $data> for Got {
            fn event(
                $got: &mut Self,
                $object: &$interface,
                $event: <$interface as wayland_client::Proxy>::Event,
                _: &$data,
                _: &Connection,
                _: &QueueHandle<Self>,
            ) {
                $body
            }
            $($child)?
        }
    };
}

events! { WlRegistry, GlobalListContents, |_got, _registry, _event| () }

events! { WlCallback, (), |got, _callback, event| {
    if let wl_callback::Event::Done { .. } = event {
        got.frames += 1;
    }
}}

events! { WlBuffer, (), |got, buffer, event| {
    if let wl_buffer::Event::Release = event {
        got.released += 1;
        buffer.destroy();
    }
}}

events! { WlKeyboard, (), |got, _keyboard, event| {
    if let wl_keyboard::Event::Keymap { fd, .. } = event {
        got.keymaps += 1;
        if text_of(&fd) != KEYMAP {
            got.wrong.push(format!("a keymap is {}", text_of(&fd)));
        }
    }
}}

events! { WlDataOffer, (), |got, offer, event| {
    if let wl_data_offer::Event::Offer { mime_type } = event {
        let number = mime_type.parse().unwrap_or(0);
        if number <= got.last_offer {
            got.wrong.push(format!("offer {mime_type} comes after {}", got.last_offer));
        }
        got.last_offer = number;
        got.offers += 1;
        offer.destroy();
    }
}}

impl Dispatch<WlDataDevice, ()> for Got {
    fn event(
        _: &mut Self,
        _: &WlDataDevice,
        _: wl_data_device::Event,
        _: &(),
        _: &Connection,
        _: &QueueHandle<Self>,
    ) {
    }

    event_created_child!(Got, WlDataDevice, [wl_data_device::EVT_DATA_OFFER_OPCODE => (WlDataOffer, ())]);
}

/// One life: frames and buffers, and what the server sends beside. One that leaves does so in the middle.
pub fn live(path: &str, leaves: bool) -> Fate {
    let socket = UnixStream::connect(path).expect("the server accepts");
    match try_to_live(socket, leaves) {
        Ok(fate) => fate,
        Err(Failed(why)) => Fate::Ended(why),
    }
}

fn try_to_live(socket: UnixStream, leaves: bool) -> Result<Fate, Failed> {
    let connection = Connection::from_socket(socket)?;
    let (globals, mut queue) = registry_queue_init::<Got>(&connection)?;
    let mut got = Got::default();
    let lived = rounds(&globals, &mut queue, &mut got, if leaves { ROUNDS / 2 } else { ROUNDS });
    let lived = lived.and_then(|()| if leaves { Ok(()) } else { finish(&mut queue, &mut got) });
    let _ = queue.flush();
    // wayland-client keeps what is in a queue that is dropped.
    let _ = queue.dispatch_pending(&mut got);
    lived.map(|()| if leaves { Fate::Left } else { Fate::Whole(got) })
}

fn rounds(
    globals: &GlobalList,
    queue: &mut EventQueue<Got>,
    got: &mut Got,
    count: usize,
) -> Result<(), Failed> {
    let qh = queue.handle();
    let compositor: WlCompositor = globals.bind(&qh, 1..=4, ())?;
    let shm: WlShm = globals.bind(&qh, 1..=1, ())?;
    let seat: WlSeat = globals.bind(&qh, 1..=5, ())?;
    let manager: WlDataDeviceManager = globals.bind(&qh, 1..=3, ())?;
    manager.get_data_device(&seat, &qh, ());
    seat.get_keyboard(&qh, ());
    let surface = compositor.create_surface(&qh, ());
    let pool = shm.create_pool(file("pool").as_fd(), 4096, &qh, ());
    for _ in 0..count {
        surface.frame(&qh, ());
        surface.commit();
        pool.create_buffer(0, 1, 1, 4, Format::Argb8888, &qh, ());
        queue.roundtrip(got)?;
    }
    Ok(())
}

/// Each frame and each buffer comes back once.
fn finish(queue: &mut EventQueue<Got>, got: &mut Got) -> Result<(), Failed> {
    while got.frames < ROUNDS {
        queue.blocking_dispatch(got)?;
    }
    if (got.frames, got.released) != (ROUNDS, ROUNDS) {
        got.wrong.push(format!("{} frames, {} buffers", got.frames, got.released));
    }
    Ok(())
}
