//! What the compositor keeps of a client: its surfaces, and how far the user's acts are.

use std::collections::VecDeque;
use std::sync::Mutex;

use wayland_protocols::ext::session_lock::v1::server::ext_session_lock_surface_v1::ExtSessionLockSurfaceV1;
use wayland_protocols::wp::primary_selection::zv1::server::zwp_primary_selection_device_v1::ZwpPrimarySelectionDeviceV1;
use wayland_protocols::wp::relative_pointer::zv1::server::zwp_relative_pointer_v1::ZwpRelativePointerV1;
use wayland_protocols::xdg::shell::server::xdg_surface::XdgSurface;
use wayland_protocols::xdg::shell::server::xdg_toplevel::{State, WmCapabilities, XdgToplevel};
use wayland_protocols::xdg::shell::server::xdg_wm_base::XdgWmBase;
use wayland_protocols_wlr::layer_shell::v1::server::zwlr_layer_surface_v1::ZwlrLayerSurfaceV1;
use wayland_server::protocol::{
    wl_buffer::WlBuffer, wl_callback::WlCallback, wl_data_device::WlDataDevice,
    wl_data_source::WlDataSource, wl_keyboard::WlKeyboard, wl_output::WlOutput,
    wl_pointer::WlPointer, wl_surface::WlSurface,
};
use wayland_server::Resource;

use crate::input::Act;

/// How many frames are answered once the user has done all.
const FRAMES: usize = 6;
/// What a client does by itself after an event, as reading a pipe, it has done when it has answered so many pings.
const PINGS: u32 = 5;

/// What shows a surface.
#[derive(Clone)]
pub enum Role {
    Toplevel(XdgSurface, XdgToplevel),
    Layer(ZwlrLayerSurfaceV1),
    Lock(ExtSessionLockSurfaceV1),
}

#[derive(Default)]
pub struct SurfaceState {
    pub attached: Option<WlBuffer>,
    pub role: Option<Role>,
    is_configured: bool,
}

pub type Surface = Mutex<SurfaceState>;

/// The types that a source offers.
pub type Source = Mutex<Vec<String>>;

#[derive(Default)]
pub struct Scene {
    serial: u32,
    pub output: Option<WlOutput>,
    pub has_seat: bool,
    pub wm_base: Option<XdgWmBase>,
    pub pointers: Vec<WlPointer>,
    pub relative: Vec<ZwpRelativePointerV1>,
    pub keyboards: Vec<WlKeyboard>,
    pub devices: Vec<WlDataDevice>,
    pub primary: Vec<ZwpPrimarySelectionDeviceV1>,
    /// What is dragged, unless the drag is internal.
    pub dragged: Option<WlDataSource>,
    pub shown: Option<WlSurface>,
    has_begun: bool,
    acts: VecDeque<Act>,
    pings_left: u32,
    frames: Vec<WlCallback>,
    frames_done: usize,
}

impl Scene {
    pub fn next_serial(&mut self) -> u32 {
        self.serial += 1;
        self.serial
    }

    /// The surface that is shown, if it is there still.
    pub fn focus(&self) -> Option<WlSurface> {
        self.shown.clone().filter(Resource::is_alive)
    }

    pub fn frame(&mut self, callback: WlCallback) {
        self.frames.push(callback);
    }

    pub fn commit(&mut self, surface: &WlSurface) {
        let mut state =
            surface.data::<Surface>().expect("surfaces have their state").lock().unwrap();
        let (buffer, role) = (state.attached.take(), state.role.clone());
        let is_first = role.is_some() && !std::mem::replace(&mut state.is_configured, true);
        drop(state);
        if let Some(role) = role.as_ref().filter(|_| is_first) {
            self.configure(role);
        }
        if let Some(buffer) = buffer {
            buffer.release();
            if role.is_some() && self.shown.is_none() {
                self.show(surface);
            }
        }
        if self.has_begun && self.acts.is_empty() && self.pings_left == 0 {
            self.answer_frames();
        }
    }

    fn show(&mut self, surface: &WlSurface) {
        self.shown = Some(surface.clone());
        if let Some(output) = &self.output {
            surface.enter(output);
        }
        self.begin_if_ready();
    }

    /// The user begins when a surface is shown to a client that has the pointer, if it wants one.
    pub fn begin_if_ready(&mut self) {
        if !self.has_begun && self.shown.is_some() && (!self.has_seat || !self.pointers.is_empty())
        {
            self.has_begun = true;
            self.acts = Act::all();
            self.go_on();
        }
    }

    fn configure(&mut self, role: &Role) {
        let serial = self.next_serial();
        match role {
            Role::Toplevel(xdg, toplevel) => {
                if toplevel.version() >= 4 {
                    toplevel.configure_bounds(800, 600);
                }
                if toplevel.version() >= 5 {
                    toplevel
                        .wm_capabilities((WmCapabilities::Maximize as u32).to_ne_bytes().into());
                }
                toplevel.configure(0, 0, (State::Activated as u32).to_ne_bytes().into());
                xdg.configure(serial);
            }
            Role::Layer(layer) => layer.configure(serial, 120, 80),
            Role::Lock(lock) => lock.configure(serial, 64, 48),
        }
    }

    /// A lock's surface is told its size before it commits anything.
    pub fn give_lock(&mut self, surface: &WlSurface, lock: ExtSessionLockSurfaceV1) {
        let role = Role::Lock(lock);
        self.configure(&role);
        let mut state =
            surface.data::<Surface>().expect("surfaces have their state").lock().unwrap();
        state.is_configured = true;
        state.role = Some(role);
    }

    /// The next act, once the client has done what the last one asked for.
    pub fn go_on(&mut self) {
        let can_ping = self.wm_base.as_ref().is_some_and(Resource::is_alive);
        while self.pings_left == 0 {
            let Some(act) = self.acts.pop_front() else { return self.answer_frames() };
            self.act(act);
            self.pings_left = if can_ping { PINGS } else { 0 };
        }
        let serial = self.next_serial();
        if let Some(wm_base) = &self.wm_base {
            wm_base.ping(serial);
        }
    }

    pub fn pong(&mut self) {
        if self.pings_left > 0 {
            self.pings_left -= 1;
            self.go_on();
        }
    }

    /// What has to be done before all else.
    pub fn next(&mut self, act: Act) {
        self.acts.push_front(act);
    }

    fn answer_frames(&mut self) {
        if self.frames_done > FRAMES {
            return;
        }
        for callback in std::mem::take(&mut self.frames) {
            callback.done(self.frames_done as u32 * 16);
            self.frames_done += 1;
        }
        if self.frames_done > FRAMES {
            self.close();
        }
    }

    fn close(&mut self) {
        let Some(surface) = self.focus() else { return };
        let role = surface.data::<Surface>().and_then(|it| it.lock().ok()?.role.clone());
        match role {
            Some(Role::Toplevel(_, toplevel)) => toplevel.close(),
            Some(Role::Layer(layer)) => layer.closed(),
            Some(Role::Lock(_)) | None => {}
        }
    }
}
