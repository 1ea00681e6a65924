//! A small Wayland compositor over `wayland-server`: it draws nothing, and lets clients believe that they are shown.
//!
//! ```text
//! compositor [-v] [-k] SOCKET
//! ```
//!
//! `SOCKET` is a path, or a name in `$XDG_RUNTIME_DIR`. With `-v` it says who comes, binds and goes. With `-k` it reads
//! numbers of keys, one a line, from the standard input, and presses them (`linux/input-event-codes.h` has their numbers).
//! Surfaces get their configure events, frame callbacks and buffers back, the surface that was mapped last has the
//! keyboard, and what one client copies another one can paste. That is enough for `wayland-info`, `weston-simple-shm`,
//! `weston-terminal`, `wl-copy` and `wl-paste`.

use std::{
    fs::File,
    io::{self, Write},
    os::fd::AsFd,
    sync::{
        atomic::{AtomicBool, Ordering},
        mpsc, Arc, Mutex,
    },
    thread,
    time::Instant,
};

use rustix::{
    event::{poll, PollFd, PollFlags},
    fs::{memfd_create, MemfdFlags},
};
use wayland_protocols::xdg::shell::server::{
    xdg_popup::XdgPopup,
    xdg_positioner::XdgPositioner,
    xdg_surface::{self, XdgSurface},
    xdg_toplevel::{self, XdgToplevel},
    xdg_wm_base::{self, XdgWmBase},
};
use wayland_server::{
    backend::{ClientData, ClientId, DisconnectReason},
    protocol::{
        wl_buffer::WlBuffer,
        wl_callback::WlCallback,
        wl_compositor::{self, WlCompositor},
        wl_data_device::{self, WlDataDevice},
        wl_data_device_manager::{self, WlDataDeviceManager},
        wl_data_offer::{self, WlDataOffer},
        wl_data_source::{self, WlDataSource},
        wl_keyboard::{self, WlKeyboard},
        wl_output::{self, WlOutput},
        wl_pointer::WlPointer,
        wl_region::WlRegion,
        wl_seat::{self, WlSeat},
        wl_shm::{self, WlShm},
        wl_shm_pool::{self, WlShmPool},
        wl_subcompositor::{self, WlSubcompositor},
        wl_subsurface::WlSubsurface,
        wl_surface::{self, WlSurface},
    },
    Client, DataInit, Dispatch, Display, DisplayHandle, GlobalDispatch, ListeningSocket, New,
    Resource,
};

const FRAME_MILLISECONDS: i32 = 16;

const KEYMAP: &[u8] = b"xkb_keymap { xkb_keycodes { include \"evdev+aliases(qwerty)\" };\
    xkb_types { include \"complete\" }; xkb_compat { include \"complete\" };\
    xkb_symbols { include \"pc+us+inet(evdev)\" }; };\0";

static IS_LOGGING: AtomicBool = AtomicBool::new(false);

macro_rules! log {
    ($($what:tt)*) => {
        if IS_LOGGING.load(Ordering::Relaxed) {
            println!($($what)*);
        }
    };
}

/// The compositor. What it keeps of a surface, a source or an offer is the data of that object.
struct Compositor {
    begin: Instant,
    serial: u32,
    surfaces: Vec<WlSurface>,
    keyboards: Vec<WlKeyboard>,
    devices: Vec<WlDataDevice>,
    /// The surface that has the keyboard.
    focus: Option<WlSurface>,
    /// What can be pasted.
    selection: Option<WlDataSource>,
}

#[derive(Default)]
struct SurfaceState {
    attached: Option<WlBuffer>,
    shown: Option<WlBuffer>,
    frames: Vec<WlCallback>,
    role: Option<Role>,
    is_configured: bool,
    is_mapped: bool,
}

type Surface = Mutex<SurfaceState>;

#[derive(Clone)]
enum Role {
    Toplevel(XdgSurface, XdgToplevel),
    Popup(XdgSurface, XdgPopup),
}

/// The types that a source offers.
type Source = Mutex<Vec<String>>;

/// What the compositor keeps of a surface.
fn state_of(surface: &WlSurface) -> &Surface {
    surface.data().expect("surfaces have their state")
}

fn is_of_client_of(resource: &impl Resource, other: &impl Resource) -> bool {
    resource.id().same_client_as(&other.id())
}

impl Compositor {
    fn new() -> Compositor {
        Compositor {
            begin: Instant::now(),
            serial: 0,
            surfaces: Vec::new(),
            keyboards: Vec::new(),
            devices: Vec::new(),
            focus: None,
            selection: None,
        }
    }

    fn next_serial(&mut self) -> u32 {
        self.serial += 1;
        self.serial
    }

    /// A frame was shown: callbacks are done, and buffers are free again.
    fn show_frame(&mut self) {
        let now = self.begin.elapsed().as_millis() as u32;
        for surface in &self.surfaces {
            let mut state = state_of(surface).lock().unwrap();
            for callback in state.frames.drain(..) {
                callback.done(now);
            }
            if let Some(buffer) = state.shown.take() {
                buffer.release();
            }
        }
    }

    fn configure(&mut self, role: &Role) {
        let xdg = match role {
            Role::Toplevel(xdg, toplevel) => {
                let activated = xdg_toplevel::State::Activated as u32;
                toplevel.configure(0, 0, activated.to_ne_bytes().into());
                xdg
            }
            Role::Popup(xdg, popup) => {
                popup.configure(0, 0, 100, 100);
                xdg
            }
        };
        xdg.configure(self.next_serial());
    }

    fn commit(&mut self, surface: &WlSurface, dh: &DisplayHandle) {
        let mut state = state_of(surface).lock().unwrap();
        if let (Some(role), false) = (state.role.clone(), state.is_configured) {
            self.configure(&role);
            state.is_configured = true;
        }
        let Some(buffer) = state.attached.take() else { return };
        if let Some(last) = state.shown.replace(buffer) {
            last.release();
        }
        if state.role.is_some() && !state.is_mapped {
            state.is_mapped = true;
            drop(state);
            self.set_focus(Some(surface.clone()), dh);
        }
    }

    /// Gives the keyboard to a surface, or to none. A client is told what it can paste before it gets the keyboard.
    fn set_focus(&mut self, surface: Option<WlSurface>, dh: &DisplayHandle) {
        let last = std::mem::replace(&mut self.focus, surface);
        if let Some(last) = &last {
            let serial = self.next_serial();
            for keyboard in self.keyboards.iter().filter(|it| is_of_client_of(*it, last)) {
                keyboard.leave(serial, last);
            }
        }
        let Some(focus) = self.focus.clone() else { return };
        if !last.is_some_and(|last| is_of_client_of(&last, &focus)) {
            self.tell_selection(dh);
        }
        for keyboard in self.keyboards.clone() {
            self.enter(&keyboard);
        }
    }

    fn enter(&mut self, keyboard: &WlKeyboard) {
        let serial = self.next_serial();
        let Some(focus) = &self.focus else { return };
        if is_of_client_of(keyboard, focus) {
            keyboard.enter(serial, focus, Vec::new());
            keyboard.modifiers(serial, 0, 0, 0, 0);
        }
    }

    /// The surface that has the keyboard is told that a key was pressed and released.
    fn press(&mut self, key: u32) {
        let Some(focus) = self.focus.clone() else { return };
        let time = self.begin.elapsed().as_millis() as u32;
        for state in [wl_keyboard::KeyState::Pressed, wl_keyboard::KeyState::Released] {
            let serial = self.next_serial();
            for keyboard in self.keyboards.iter().filter(|it| is_of_client_of(*it, &focus)) {
                keyboard.key(serial, time, key, state);
            }
        }
    }

    /// A new keyboard: its keymap goes as a file.
    fn begin_keyboard(&mut self, keyboard: WlKeyboard) {
        let mut keymap: File = memfd_create("keymap", MemfdFlags::CLOEXEC).unwrap().into();
        keymap.write_all(KEYMAP).unwrap();
        let format = wl_keyboard::KeymapFormat::XkbV1;
        keyboard.keymap(format, keymap.as_fd(), KEYMAP.len() as u32);
        if keyboard.version() >= 4 {
            keyboard.repeat_info(25, 400);
        }
        self.enter(&keyboard);
        self.keyboards.push(keyboard);
    }

    /// Tells the client that has the keyboard what can be pasted.
    fn tell_selection(&self, dh: &DisplayHandle) {
        for device in &self.devices {
            self.tell_selection_to(device, dh);
        }
    }

    /// An offer is a new object of the server, and has one event for each type.
    fn tell_selection_to(&self, device: &WlDataDevice, dh: &DisplayHandle) {
        if !self.focus.as_ref().is_some_and(|focus| is_of_client_of(device, focus)) {
            return;
        }
        let (Some(source), Some(client)) = (&self.selection, device.client()) else {
            return device.selection(None);
        };
        let Ok(offer) = client.create_resource::<WlDataOffer, WlDataSource, Compositor>(
            dh,
            device.version(),
            source.clone(),
        ) else {
            return;
        };
        device.data_offer(&offer);
        for kind in source.data::<Source>().unwrap().lock().unwrap().iter() {
            offer.offer(kind.clone());
        }
        device.selection(Some(&offer));
    }

    fn select(&mut self, source: Option<WlDataSource>, dh: &DisplayHandle) {
        if source == self.selection {
            return;
        }
        if let Some(last) = std::mem::replace(&mut self.selection, source) {
            last.cancelled();
        }
        self.tell_selection(dh);
    }
}

/// A client: with `-v` it is told of.
struct Logged;

impl ClientData for Logged {
    fn initialized(&self, _: ClientId) {
        log!("a client comes");
    }

    fn disconnected(&self, _: ClientId, reason: DisconnectReason) {
        log!("a client goes: {reason:?}");
    }
}

/// A global: what its objects are told when they are bound.
macro_rules! global {
    ($interface:ty, |$object:ident| $greeting:expr) => {
        impl GlobalDispatch<$interface, ()> for Compositor {
            fn bind(
                _: &mut Self,
                _: &DisplayHandle,
                _: &Client,
                new: New<$interface>,
                _: &(),
                init: &mut DataInit<'_, Self>,
            ) {
                let $object = init.init(new, ());
                log!("binds {} version {}", <$interface>::interface(), $object.version());
                $greeting
            }
        }
    };
}

global! { WlCompositor, |_compositor| () }
global! { WlSubcompositor, |_subcompositor| () }
global! { WlDataDeviceManager, |_manager| () }
global! { XdgWmBase, |_wm_base| () }
global! { WlShm, |shm| {
    shm.format(wl_shm::Format::Argb8888);
    shm.format(wl_shm::Format::Xrgb8888);
}}
global! { WlSeat, |seat| {
    seat.capabilities(wl_seat::Capability::Pointer | wl_seat::Capability::Keyboard);
    if seat.version() >= 2 {
        seat.name("seat0".into());
    }
}}
global! { WlOutput, |output| {
    let (subpixel, transform) = (wl_output::Subpixel::Unknown, wl_output::Transform::Normal);
    output.geometry(0, 0, 300, 200, subpixel, "maker".into(), "model".into(), transform);
    output.mode(wl_output::Mode::Current | wl_output::Mode::Preferred, 1280, 720, 60000);
    if output.version() >= 2 {
        output.scale(1);
        output.done();
    }
}}

/// What an object's requests do, and what happens at its end.
macro_rules! requests {
    ($interface:ty, $data:ty, |$state:ident, $object:ident, $request:ident, $kept:ident, $dh:ident, $init:ident| $body:expr
        $(, end |$at_end:ident, $gone:ident| $end:expr)?) => {
        #[allow(unused_variables)]
        impl Dispatch<$interface, $data> for Compositor {
            fn request(
                $state: &mut Self,
                _: &Client,
                $object: &$interface,
                $request: <$interface as Resource>::Request,
                $kept: &$data,
                $dh: &DisplayHandle,
                $init: &mut DataInit<'_, Self>,
            ) {
                $body
            }
            $(
                fn destroyed($at_end: &mut Self, _: ClientId, $gone: &$interface, _: &$data) {
                    $end
                }
            )?
        }
    };
    ($($interface:ty),*) => {
        $(requests!($interface, (), |state, object, request, kept, dh, init| ());)*
    };
}

requests! { WlBuffer, WlCallback, WlOutput, WlPointer, WlRegion, WlSubsurface, XdgPopup }
requests! { XdgPositioner, XdgToplevel }

requests! { WlCompositor, (), |state, compositor, request, kept, dh, init| match request {
    wl_compositor::Request::CreateSurface { id } => {
        state.surfaces.push(init.init(id, Surface::default()));
    }
    wl_compositor::Request::CreateRegion { id } => {
        init.init(id, ());
    }
    _ => {}
}}

requests! { WlSubcompositor, (), |state, subcompositor, request, kept, dh, init| {
    if let wl_subcompositor::Request::GetSubsurface { id, .. } = request {
        init.init(id, ());
    }
}}

requests! {
    WlSurface, Surface, |state, surface, request, kept, dh, init| match request {
        wl_surface::Request::Attach { buffer, .. } => kept.lock().unwrap().attached = buffer,
        wl_surface::Request::Frame { callback } => {
            kept.lock().unwrap().frames.push(init.init(callback, ()));
        }
        wl_surface::Request::Commit => state.commit(surface, dh),
        _ => {}
    },
    end |state, surface| {
        state.surfaces.retain(|it| it != surface);
        if state.focus.as_ref() == Some(surface) {
            let is_mapped = |it: &&WlSurface| state_of(it).lock().unwrap().is_mapped;
            state.focus = state.surfaces.iter().rfind(is_mapped).cloned();
            for keyboard in state.keyboards.clone() {
                state.enter(&keyboard);
            }
        }
    }
}

requests! { WlShm, (), |state, shm, request, kept, dh, init| {
    if let wl_shm::Request::CreatePool { id, .. } = request {
        init.init(id, ()); // the descriptor is closed here, since nothing is drawn
    }
}}

requests! { WlShmPool, (), |state, pool, request, kept, dh, init| {
    if let wl_shm_pool::Request::CreateBuffer { id, .. } = request {
        init.init(id, ());
    }
}}

requests! { WlSeat, (), |state, seat, request, kept, dh, init| match request {
    wl_seat::Request::GetKeyboard { id } => state.begin_keyboard(init.init(id, ())),
    wl_seat::Request::GetPointer { id } => {
        init.init(id, ());
    }
    wl_seat::Request::GetTouch { .. } =>
        seat.post_error(wl_seat::Error::MissingCapability, "there is no touch screen"),
    _ => {}
}}

requests! {
    WlKeyboard, (), |state, keyboard, request, kept, dh, init| (),
    end |state, keyboard| state.keyboards.retain(|it| it != keyboard)
}

requests! { XdgWmBase, (), |state, wm_base, request, kept, dh, init| match request {
    xdg_wm_base::Request::GetXdgSurface { id, surface } => {
        init.init(id, surface);
    }
    xdg_wm_base::Request::CreatePositioner { id } => {
        init.init(id, ());
    }
    _ => {}
}}

requests! { XdgSurface, WlSurface, |state, xdg, request, surface, dh, init| {
    let role = match request {
        xdg_surface::Request::GetToplevel { id } => Role::Toplevel(xdg.clone(), init.init(id, ())),
        xdg_surface::Request::GetPopup { id, .. } => Role::Popup(xdg.clone(), init.init(id, ())),
        _ => return,
    };
    state_of(surface).lock().unwrap().role = Some(role);
}}

requests! { WlDataDeviceManager, (), |state, manager, request, kept, dh, init| match request {
    wl_data_device_manager::Request::CreateDataSource { id } => {
        init.init(id, Source::default());
    }
    wl_data_device_manager::Request::GetDataDevice { id, .. } => {
        let device = init.init(id, ());
        state.tell_selection_to(&device, dh);
        state.devices.push(device);
    }
    _ => {}
}}

requests! {
    WlDataDevice, (), |state, device, request, kept, dh, init| {
        if let wl_data_device::Request::SetSelection { source, .. } = request {
            state.select(source, dh);
        }
    },
    end |state, device| state.devices.retain(|it| it != device)
}

requests! {
    WlDataSource, Source, |state, source, request, types, dh, init| {
        if let wl_data_source::Request::Offer { mime_type } = request {
            types.lock().unwrap().push(mime_type);
        }
    },
    end |state, source| {
        if state.selection.as_ref() == Some(source) {
            state.selection = None;
        }
    }
}

// Somebody pastes: the source's client is to write into the pipe.
requests! { WlDataOffer, WlDataSource, |state, offer, request, source, dh, init| {
    if let wl_data_offer::Request::Receive { mime_type, fd } = request {
        source.send(mime_type, fd.as_fd());
    }
}}

/// The numbers that the standard input says.
fn numbers() -> mpsc::Receiver<u32> {
    let (numbers, said) = mpsc::channel();
    thread::spawn(move || {
        for line in io::stdin().lines().map_while(Result::ok) {
            let _ = line.trim().parse().map(|number| numbers.send(number));
        }
    });
    said
}

/// Takes an option out of the arguments. Answers whether it was there.
fn take_option(arguments: &mut Vec<String>, option: &str) -> bool {
    let count = arguments.len();
    arguments.retain(|it| it != option);
    arguments.len() < count
}

fn main() {
    let mut arguments: Vec<String> = std::env::args().skip(1).collect();
    IS_LOGGING.store(take_option(&mut arguments, "-v"), Ordering::Relaxed);
    let keys = take_option(&mut arguments, "-k").then(numbers);
    let [name] = arguments.as_slice() else {
        eprintln!("usage: compositor [-v] [-k] SOCKET");
        std::process::exit(2);
    };
    let socket = ListeningSocket::bind(name).expect("the socket can be bound");
    let mut display: Display<Compositor> = Display::new().expect("a display");
    let mut dh = display.handle();
    dh.create_global::<Compositor, WlCompositor, ()>(4, ());
    dh.create_global::<Compositor, WlSubcompositor, ()>(1, ());
    dh.create_global::<Compositor, WlShm, ()>(1, ());
    dh.create_global::<Compositor, WlSeat, ()>(5, ());
    dh.create_global::<Compositor, WlOutput, ()>(3, ());
    dh.create_global::<Compositor, WlDataDeviceManager, ()>(3, ());
    dh.create_global::<Compositor, XdgWmBase, ()>(2, ());
    let mut compositor = Compositor::new();
    let mut last_frame = Instant::now();
    loop {
        let mut ready = [PollFd::new(&socket, PollFlags::IN), PollFd::new(&display, PollFlags::IN)];
        let _ = poll(&mut ready, FRAME_MILLISECONDS);
        while let Ok(Some(stream)) = socket.accept() {
            if let Err(error) = dh.insert_client(stream, Arc::new(Logged)) {
                eprintln!("a client cannot be served: {error}");
            }
        }
        display.dispatch_clients(&mut compositor).expect("clients can be read");
        for key in keys.iter().flat_map(|keys| keys.try_iter()) {
            compositor.press(key);
        }
        if last_frame.elapsed().as_millis() >= FRAME_MILLISECONDS as u128 {
            last_frame = Instant::now();
            compositor.show_frame();
        }
        display.flush_clients().expect("clients can be written");
    }
}
