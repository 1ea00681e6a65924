//! A window of winit, drawn as what draws without a GPU does it: it takes the pointers out of the window's handles, finds the
//! connection by the one and the surface by the other, and gives that shared memory.
//!
//! It tells what happens, and ends when two keys were pressed.

use std::fs::File;
use std::os::fd::AsFd;
use std::os::unix::fs::FileExt;

use rustix::fs::{memfd_create, MemfdFlags};
use wayland_client::backend::{Backend, ObjectId};
use wayland_client::globals::{registry_queue_init, GlobalListContents};
use wayland_client::protocol::wl_buffer::{self, WlBuffer};
use wayland_client::protocol::wl_registry::{self, WlRegistry};
use wayland_client::protocol::wl_shm::{self, WlShm};
use wayland_client::protocol::wl_shm_pool::WlShmPool;
use wayland_client::protocol::wl_surface::WlSurface;
use wayland_client::{delegate_noop, Connection, Dispatch, EventQueue, Proxy, QueueHandle};
use winit::application::ApplicationHandler;
use winit::event::{ElementState, WindowEvent};
use winit::event_loop::{ActiveEventLoop, EventLoop};
use winit::raw_window_handle::{
    HasDisplayHandle, HasWindowHandle, RawDisplayHandle, RawWindowHandle,
};
use winit::window::{Window, WindowId};

const WIDTH: i32 = 64;
const HEIGHT: i32 = 48;
const BYTES: i32 = 4 * WIDTH * HEIGHT;

/// Draws on the surface of a window, through a queue of its own.
struct Painter {
    queue: EventQueue<Painted>,
    surface: WlSurface,
    buffer: WlBuffer,
}

/// What the painter is told.
#[derive(Default)]
struct Painted {
    /// The server has shown the buffer.
    is_free: bool,
}

impl Painter {
    fn new(window: &Window) -> Painter {
        let display = window.display_handle().unwrap().as_raw();
        let surface = window.window_handle().unwrap().as_raw();
        let (RawDisplayHandle::Wayland(display), RawWindowHandle::Wayland(surface)) =
            (display, surface)
        else {
            panic!("the handles are not of Wayland");
        };
        let surface = surface.surface.as_ptr();
        println!(
            "the window's id is its surface: {}",
            u64::from(window.id()) == surface as u64
        );
        // SAFETY: the connection is open as long as the window, which lives longer than this.
        let backend = unsafe { Backend::from_foreign_display(display.display.as_ptr().cast()) };
        let connection = Connection::from_backend(backend);
        // SAFETY: the surface is the window's.
        let surface = unsafe { ObjectId::from_ptr(WlSurface::interface(), surface.cast()) };
        let surface = WlSurface::from_id(&connection, surface.unwrap()).unwrap();
        let (globals, queue) = registry_queue_init::<Painted>(&connection).unwrap();
        let shm: WlShm = globals.bind(&queue.handle(), 1..=1, ()).unwrap();
        Painter {
            buffer: buffer(&shm, &queue.handle()),
            surface,
            queue,
        }
    }

    /// Draws, and waits until that was shown.
    fn draw(&mut self) {
        self.surface.attach(Some(&self.buffer), 0, 0);
        self.surface.damage(0, 0, WIDTH, HEIGHT);
        self.surface.commit();
        let mut painted = Painted::default();
        while !painted.is_free {
            self.queue.blocking_dispatch(&mut painted).unwrap();
        }
    }
}

/// A buffer of one colour.
fn buffer(shm: &WlShm, queue: &QueueHandle<Painted>) -> WlBuffer {
    let memory: File = memfd_create("window", MemfdFlags::CLOEXEC).unwrap().into();
    memory.write_all_at(&[0x80; BYTES as usize], 0).unwrap();
    let pool = shm.create_pool(memory.as_fd(), BYTES, queue, ());
    let format = wl_shm::Format::Argb8888;
    let buffer = pool.create_buffer(0, WIDTH, HEIGHT, 4 * WIDTH, format, queue, ());
    pool.destroy();
    buffer
}

delegate_noop!(Painted: ignore WlShm);
delegate_noop!(Painted: WlShmPool);

impl Dispatch<WlBuffer, ()> for Painted {
    fn event(
        painted: &mut Self,
        _: &WlBuffer,
        event: wl_buffer::Event,
        (): &(),
        _: &Connection,
        _: &QueueHandle<Self>,
    ) {
        painted.is_free |= matches!(event, wl_buffer::Event::Release);
    }
}

impl Dispatch<WlRegistry, GlobalListContents> for Painted {
    fn event(
        _: &mut Self,
        _: &WlRegistry,
        _: wl_registry::Event,
        _: &GlobalListContents,
        _: &Connection,
        _: &QueueHandle<Self>,
    ) {
    }
}

#[derive(Default)]
struct Program {
    // It is dropped before the window.
    painter: Option<Painter>,
    window: Option<Window>,
    keys: usize,
}

impl ApplicationHandler for Program {
    fn resumed(&mut self, events: &ActiveEventLoop) {
        let attributes = Window::default_attributes().with_title("a window");
        self.window = Some(events.create_window(attributes).unwrap());
    }

    fn window_event(&mut self, events: &ActiveEventLoop, id: WindowId, event: WindowEvent) {
        let Some(window) = self.window.as_ref().filter(|window| window.id() == id) else {
            return println!("an event of no window: {event:?}");
        };
        match event {
            WindowEvent::RedrawRequested if self.painter.is_none() => {
                self.painter.insert(Painter::new(window)).draw();
                println!("drawn");
            }
            WindowEvent::KeyboardInput { event, .. } if event.state == ElementState::Pressed => {
                println!("key {:?}", event.logical_key);
                self.keys += 1;
            }
            WindowEvent::CloseRequested => events.exit(),
            _ => {}
        }
        if self.keys == 2 {
            events.exit();
        }
    }
}

fn main() {
    let events = EventLoop::new().unwrap();
    events.run_app(&mut Program::default()).unwrap();
    println!("ended");
}
