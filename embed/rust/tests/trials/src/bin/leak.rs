//! Connections that come and go at four points of their life: what is left of descriptors and memory.
//!
//! ```text
//! leak CONNECTIONS
//! ```

use std::os::fd::AsFd;
use std::os::unix::net::UnixStream;
use std::process::ExitCode;
use std::sync::Arc;
use std::thread;

use trials::counted::Checks;
use trials::process::{descriptors, file, memory, wait_for};
use wayland_client::globals::{registry_queue_init, GlobalList, GlobalListContents};
use wayland_client::protocol::{
    wl_callback::WlCallback, wl_compositor::WlCompositor, wl_keyboard::WlKeyboard,
    wl_registry::WlRegistry, wl_seat::WlSeat, wl_shm::WlShm, wl_shm_pool::WlShmPool,
    wl_surface::WlSurface,
};
use wayland_client::{delegate_noop, Connection, EventQueue, Proxy, QueueHandle};

/// What the allocator and the kernel need to have settled.
const WARM_UP: usize = 200;
/// The memory that may be left when all have gone, in kilobytes. Connections that kept a buffer each would leave more.
const MEMORY_LEFT: usize = 2048;

mod server {
    use std::os::fd::AsFd;

    use trials::process::file;
    use wayland_server::protocol::{
        wl_callback::WlCallback,
        wl_compositor::{self, WlCompositor},
        wl_keyboard::{KeymapFormat, WlKeyboard},
        wl_seat::{self, WlSeat},
        wl_shm::{self, WlShm},
        wl_shm_pool::WlShmPool,
        wl_surface::{self, WlSurface},
    };
    use wayland_server::{
        Client, DataInit, Dispatch, Display, DisplayHandle, GlobalDispatch, New, Resource,
    };

    #[derive(Default)]
    pub struct Server {
        pub frames: Vec<WlCallback>,
        pub pools: usize,
    }

    macro_rules! requests {
        ($interface:ty, |$server:ident, $init:ident, $request:ident| $body:expr) => {
            impl Dispatch<$interface, ()> for Server {
                fn request(
                    $server: &mut Self,
                    _: &Client,
                    _: &$interface,
                    $request: <$interface as Resource>::Request,
                    _: &(),
                    _: &DisplayHandle,
                    $init: &mut DataInit<'_, Self>,
                ) {
                    $body
                }
            }
        };
    }

    macro_rules! globals {
        ($($interface:ty),*) => {$(
            impl GlobalDispatch<$interface, ()> for Server {
                fn bind(_: &mut Self, _: &DisplayHandle, _: &Client, new: New<$interface>, _: &(), init: &mut DataInit<'_, Self>) {
                    init.init(new, ());
                }
            }
        )*};
    }

    globals! { WlCompositor, WlShm, WlSeat }
    requests! { WlCallback, |_server, _init, _request| () }
    requests! { WlKeyboard, |_server, _init, _request| () }
    requests! { WlShmPool, |_server, _init, _request| () }

    requests! { WlCompositor, |_server, init, request| {
        if let wl_compositor::Request::CreateSurface { id } = request {
            init.init(id, ());
        }
    }}

    requests! { WlSurface, |server, init, request| {
        if let wl_surface::Request::Frame { callback } = request {
            server.frames.push(init.init(callback, ()));
        }
    }}

    requests! { WlShm, |server, init, request| {
        if let wl_shm::Request::CreatePool { id, .. } = request {
            init.init(id, ());
            server.pools += 1;
        }
    }}

    requests! { WlSeat, |_server, init, request| {
        if let wl_seat::Request::GetKeyboard { id } = request {
            let (keyboard, keymap) = (init.init(id, ()), file("keymap"));
            (0..3).for_each(|_| keyboard.keymap(KeymapFormat::XkbV1, keymap.as_fd(), 6));
        }
    }}

    pub fn new() -> Display<Server> {
        let display = Display::new().unwrap();
        display.handle().create_global::<Server, WlCompositor, ()>(4, ());
        display.handle().create_global::<Server, WlShm, ()>(1, ());
        display.handle().create_global::<Server, WlSeat, ()>(5, ());
        display
    }
}

struct Came;

impl wayland_client::Dispatch<WlRegistry, GlobalListContents> for Came {
    fn event(
        _: &mut Self,
        _: &WlRegistry,
        _: <WlRegistry as Proxy>::Event,
        _: &GlobalListContents,
        _: &Connection,
        _: &QueueHandle<Self>,
    ) {
    }
}

delegate_noop!(Came: ignore WlCallback);
delegate_noop!(Came: ignore WlCompositor);
delegate_noop!(Came: ignore WlKeyboard);
delegate_noop!(Came: ignore WlSeat);
delegate_noop!(Came: ignore WlShm);
delegate_noop!(Came: ignore WlShmPool);
delegate_noop!(Came: ignore WlSurface);

/// How far a client goes.
#[derive(Clone, Copy)]
enum Until {
    AllAnswered,
    Sent,
    Unsent,
    SurfaceDestroyed,
}

fn live(connection: &Connection, until: Until) {
    let (globals, mut queue) = registry_queue_init::<Came>(connection).unwrap();
    send_all(&globals, &queue, until);
    match until {
        Until::AllAnswered | Until::SurfaceDestroyed => drop(queue.roundtrip(&mut Came).unwrap()),
        Until::Sent => connection.flush().unwrap(),
        Until::Unsent => {}
    }
}

fn send_all(globals: &GlobalList, queue: &EventQueue<Came>, until: Until) {
    let qh = queue.handle();
    let compositor: WlCompositor = globals.bind(&qh, 1..=4, ()).unwrap();
    let shm: WlShm = globals.bind(&qh, 1..=1, ()).unwrap();
    let seat: WlSeat = globals.bind(&qh, 1..=5, ()).unwrap();
    let surface = compositor.create_surface(&qh, ());
    surface.frame(&qh, ());
    shm.create_pool(file("pool").as_fd(), 4, &qh, ());
    seat.get_keyboard(&qh, ());
    if let Until::SurfaceDestroyed = until {
        surface.destroy();
    }
}

/// A connection comes and goes.
fn one(
    display: &mut wayland_server::Display<server::Server>,
    state: &mut server::Server,
    until: Until,
) {
    let (ours, theirs) = UnixStream::pair().unwrap();
    display.handle().insert_client(theirs, Arc::new(())).unwrap();
    let client = thread::spawn(move || live(&Connection::from_socket(ours).unwrap(), until));
    while !client.is_finished() {
        wait_for(&[display], 1);
        display.dispatch_clients(state).unwrap();
        display.flush_clients().unwrap();
    }
    client.join().unwrap();
    state.frames.clear();
    display.dispatch_clients(state).unwrap();
    display.flush_clients().unwrap();
}

fn main() -> ExitCode {
    let count: usize =
        std::env::args().nth(1).and_then(|it| it.parse().ok()).expect("usage: leak CONNECTIONS");
    let (mut checks, mut display, mut state) =
        (Checks::default(), server::new(), server::Server::default());
    let points = [Until::AllAnswered, Until::Sent, Until::Unsent, Until::SurfaceDestroyed];
    (0..WARM_UP).for_each(|it| one(&mut display, &mut state, points[it % 4]));
    let (open, held) = (descriptors(), memory());
    (0..count).for_each(|it| one(&mut display, &mut state, points[it % 4]));
    checks.equal(
        &format!("{count} connections leave as many descriptors as there were"),
        descriptors(),
        open,
    );
    let left = memory().saturating_sub(held);
    checks.check(&format!("and {left} kB of {held}"), left < MEMORY_LEFT);
    checks.check(
        "each that sent all had its pool made",
        state.pools >= count * 2 / 4 && state.pools <= count + WARM_UP,
    );
    checks.end()
}
