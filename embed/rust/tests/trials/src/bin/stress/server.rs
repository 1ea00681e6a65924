//! The server: what is counted of its objects, and the threads that dispatch and accept.

use std::os::fd::{AsFd, OwnedFd};
use std::sync::atomic::Ordering::SeqCst;
use std::sync::atomic::{AtomicBool, AtomicUsize};
use std::sync::{Arc, Mutex};
use std::thread::{self, JoinHandle};
use std::time::{Duration, Instant};

use trials::process::wait_for;
use wayland_server::backend::{ClientData, ClientId, DisconnectReason};
use wayland_server::protocol::{
    wl_buffer::WlBuffer,
    wl_callback::WlCallback,
    wl_compositor::{self, WlCompositor},
    wl_data_device::WlDataDevice,
    wl_data_device_manager::{self, WlDataDeviceManager},
    wl_data_offer::WlDataOffer,
    wl_data_source::WlDataSource,
    wl_keyboard::WlKeyboard,
    wl_output::WlOutput,
    wl_region::WlRegion,
    wl_seat::{self, WlSeat},
    wl_shm::{self, WlShm},
    wl_shm_pool::{self, WlShmPool},
    wl_surface::{self, WlSurface},
};
use wayland_server::{
    Client, DataInit, Dispatch, Display, DisplayHandle, GlobalDispatch, ListeningSocket, New,
    Resource,
};

use crate::senders;

/// When a frame callback is done.
#[derive(Clone, Copy, PartialEq)]
pub enum When {
    Later,
    AtOnce,
    Racy,
}

#[derive(Default)]
pub struct Counts {
    pub initialized: AtomicUsize,
    pub disconnected: AtomicUsize,
    pub made: AtomicUsize,
    pub destroyed: AtomicUsize,
    pub told_twice: AtomicUsize,
    pub after_end: AtomicUsize,
    pub offers: AtomicUsize,
    pub kills: AtomicUsize,
}

/// What all threads of the server have.
pub struct Shared {
    pub counts: Counts,
    pub when: When,
    pub devices: Mutex<Vec<WlDataDevice>>,
    pub keyboards: Mutex<Vec<WlKeyboard>>,
    pub callbacks: Mutex<Vec<(Instant, WlCallback)>>,
    is_over: AtomicBool,
}

impl Shared {
    pub fn is_over(&self) -> bool {
        self.is_over.load(SeqCst)
    }
}

/// Counts its end, and what comes after that.
pub struct Own {
    shared: Arc<Shared>,
    has_ended: AtomicBool,
}

impl Own {
    pub fn new(shared: &Arc<Shared>) -> Self {
        shared.counts.made.fetch_add(1, SeqCst);
        Self { shared: shared.clone(), has_ended: AtomicBool::new(false) }
    }

    fn is_asked(&self) {
        if self.has_ended.load(SeqCst) {
            self.shared.counts.after_end.fetch_add(1, SeqCst);
        }
    }

    fn end(&self) {
        if self.has_ended.swap(true, SeqCst) {
            self.shared.counts.told_twice.fetch_add(1, SeqCst);
        } else {
            self.shared.counts.destroyed.fetch_add(1, SeqCst);
        }
    }
}

struct OfClient(Arc<Shared>, AtomicBool);

impl ClientData for OfClient {
    fn initialized(&self, _: ClientId) {
        self.0.counts.initialized.fetch_add(1, SeqCst);
    }

    fn disconnected(&self, _: ClientId, _: DisconnectReason) {
        let count = if self.1.swap(true, SeqCst) {
            &self.0.counts.told_twice
        } else {
            &self.0.counts.disconnected
        };
        count.fetch_add(1, SeqCst);
    }
}

pub struct App(Arc<Shared>);

impl App {
    fn own(&self) -> Own {
        Own::new(&self.0)
    }

    /// A frame callback was asked for.
    fn frame(&self, callback: WlCallback) {
        match self.0.when {
            When::AtOnce => callback.done(0),
            When::Later | When::Racy => {
                self.0.callbacks.lock().unwrap().push((Instant::now(), callback))
            }
        }
    }
}

macro_rules! globals {
    ($($interface:ty),*) => {$(
        impl GlobalDispatch<$interface, ()> for App {
            fn bind(
                app: &mut Self,
                _: &DisplayHandle,
                _: &Client,
                new: New<$interface>,
                _: &(),
                init: &mut DataInit<'_, Self>,
            ) {
                init.init(new, app.own());
            }
        }
    )*};
}

globals! { WlCompositor, WlShm, WlSeat, WlDataDeviceManager, WlOutput }

/// What the requests of an interface do, beside being counted.
macro_rules! requests {
    ($interface:ty, |$app:ident, $init:ident, $request:ident| $body:expr) => {
        impl Dispatch<$interface, Own> for App {
            fn request(
                $app: &mut Self,
                _: &Client,
                _: &$interface,
                $request: <$interface as Resource>::Request,
                own: &Own,
                _: &DisplayHandle,
                $init: &mut DataInit<'_, Self>,
            ) {
                own.is_asked();
                $body
            }

            fn destroyed(_: &mut Self, _: ClientId, _: &$interface, own: &Own) {
                own.end();
            }
        }
    };
    ($($interface:ty),*) => {
        $(requests!($interface, |_app, _init, _request| ());)*
    };
}

requests! { WlBuffer, WlCallback, WlDataDevice, WlDataOffer, WlDataSource, WlKeyboard, WlOutput, WlRegion }

requests! { WlCompositor, |app, init, request| match request {
    wl_compositor::Request::CreateSurface { id } => drop(init.init(id, app.own())),
    wl_compositor::Request::CreateRegion { id } => drop(init.init(id, app.own())),
    _ => {}
}}

requests! { WlSurface, |app, init, request| {
    if let wl_surface::Request::Frame { callback } = request {
        let callback = init.init(callback, app.own());
        app.frame(callback);
    }
}}

requests! { WlShm, |app, init, request| {
    if let wl_shm::Request::CreatePool { id, .. } = request {
        init.init(id, app.own());
    }
}}

requests! { WlShmPool, |app, init, request| {
    if let wl_shm_pool::Request::CreateBuffer { id, .. } = request {
        init.init(id, app.own()).release();
    }
}}

requests! { WlSeat, |app, init, request| {
    if let wl_seat::Request::GetKeyboard { id } = request {
        let keyboard = init.init(id, app.own());
        app.0.keyboards.lock().unwrap().push(keyboard);
    }
}}

requests! { WlDataDeviceManager, |app, init, request| match request {
    wl_data_device_manager::Request::GetDataDevice { id, .. } => {
        let device = init.init(id, app.own());
        app.0.devices.lock().unwrap().push(device);
    }
    wl_data_device_manager::Request::CreateDataSource { id } => drop(init.init(id, app.own())),
    _ => {}
}}

fn dispatch(mut display: Display<App>, shared: Arc<Shared>) {
    let ready: OwnedFd = display.as_fd().try_clone_to_owned().unwrap();
    let mut app = App(shared);
    while !app.0.is_over() {
        wait_for(&[&ready], 10);
        display.dispatch_clients(&mut app).unwrap();
        display.flush_clients().unwrap();
    }
}

fn accept(listener: ListeningSocket, mut handle: DisplayHandle, shared: Arc<Shared>) {
    while !shared.is_over() {
        wait_for(&[&listener], 10);
        while let Some(stream) = listener.accept().unwrap() {
            let data = OfClient(shared.clone(), AtomicBool::new(false));
            handle.insert_client(stream, Arc::new(data)).unwrap();
        }
    }
}

/// The server while it runs.
pub struct Running {
    pub shared: Arc<Shared>,
    threads: Vec<JoinHandle<()>>,
}

impl Running {
    pub fn start(path: &str, when: When) -> Self {
        let shared = Arc::new(Shared {
            counts: Counts::default(),
            when,
            devices: Mutex::default(),
            keyboards: Mutex::default(),
            callbacks: Mutex::default(),
            is_over: AtomicBool::new(false),
        });
        let display = Display::<App>::new().unwrap();
        let handle = display.handle();
        // Their names are 1 to 4.
        handle.create_global::<App, WlCompositor, ()>(4, ());
        handle.create_global::<App, WlShm, ()>(1, ());
        handle.create_global::<App, WlSeat, ()>(5, ());
        handle.create_global::<App, WlDataDeviceManager, ()>(3, ());
        let listener = ListeningSocket::bind_absolute(path.into()).unwrap();
        let mut threads = Vec::new();
        let mut start = |run: Box<dyn FnOnce(DisplayHandle, Arc<Shared>) + Send>| {
            let (handle, shared) = (handle.clone(), shared.clone());
            threads.push(thread::spawn(move || run(handle, shared)));
        };
        start(Box::new(|_, shared| dispatch(display, shared)));
        start(Box::new(|handle, shared| accept(listener, handle, shared)));
        for send in [senders::offers, senders::keymaps_and_globals, senders::frames] {
            start(Box::new(move |mut handle, shared| {
                while !shared.is_over() {
                    send(&mut handle, &shared);
                    let _ = handle.flush_clients();
                    thread::sleep(Duration::from_millis(1));
                }
            }));
        }
        Self { shared, threads }
    }

    pub fn stop(self) {
        self.shared.is_over.store(true, SeqCst);
        for thread in self.threads {
            thread.join().unwrap();
        }
        self.shared.devices.lock().unwrap().clear();
        self.shared.keyboards.lock().unwrap().clear();
        self.shared.callbacks.lock().unwrap().clear();
    }
}
