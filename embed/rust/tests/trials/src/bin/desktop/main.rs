//! A compositor over wayland-server, with layers, locks, a seat with input and keymap, selections, and drag and drop. It draws nothing.
//!
//! ```text
//! desktop SOCKET
//! ```
//!
//! It prints that it is ready, and then each request that comes. To a client's first surface that is shown it does what a user
//! might: moves the pointer, presses keys, clicks, drags and drops. Then it answers some frames, and closes the surface.

mod input;
mod requests;
mod scene;

use std::sync::{Arc, Mutex};

use trials::process::wait_for;
use wayland_protocols::ext::session_lock::v1::server::ext_session_lock_manager_v1::ExtSessionLockManagerV1;
use wayland_protocols::wp::pointer_constraints::zv1::server::zwp_pointer_constraints_v1::ZwpPointerConstraintsV1;
use wayland_protocols::wp::primary_selection::zv1::server::zwp_primary_selection_device_manager_v1::ZwpPrimarySelectionDeviceManagerV1;
use wayland_protocols::wp::relative_pointer::zv1::server::zwp_relative_pointer_manager_v1::ZwpRelativePointerManagerV1;
use wayland_protocols::wp::viewporter::server::wp_viewporter::WpViewporter;
use wayland_protocols::xdg::decoration::zv1::server::zxdg_decoration_manager_v1::ZxdgDecorationManagerV1;
use wayland_protocols::xdg::shell::server::xdg_wm_base::XdgWmBase;
use wayland_protocols::xdg::xdg_output::zv1::server::zxdg_output_manager_v1::ZxdgOutputManagerV1;
use wayland_protocols_wlr::layer_shell::v1::server::zwlr_layer_shell_v1::ZwlrLayerShellV1;
use wayland_server::backend::{ClientData, ClientId, DisconnectReason};
use wayland_server::protocol::wl_compositor::WlCompositor;
use wayland_server::protocol::wl_data_device_manager::WlDataDeviceManager;
use wayland_server::protocol::wl_output::WlOutput;
use wayland_server::protocol::wl_seat::WlSeat;
use wayland_server::protocol::wl_shm::WlShm;
use wayland_server::protocol::wl_subcompositor::WlSubcompositor;
use wayland_server::{Display, DisplayHandle, ListeningSocket};

use scene::Scene;

pub struct Desktop;

/// What the compositor keeps of a client.
#[derive(Default)]
pub struct OfClient(pub Mutex<Scene>);

impl ClientData for OfClient {
    fn initialized(&self, _: ClientId) {
        println!("a client comes");
    }

    fn disconnected(&self, _: ClientId, reason: DisconnectReason) {
        println!("a client goes: {reason:?}");
    }
}

fn create_globals(handle: &DisplayHandle) {
    handle.create_global::<Desktop, WlCompositor, ()>(5, ());
    handle.create_global::<Desktop, WlSubcompositor, ()>(1, ());
    handle.create_global::<Desktop, WlShm, ()>(1, ());
    handle.create_global::<Desktop, WlSeat, ()>(7, ());
    handle.create_global::<Desktop, WlOutput, ()>(4, ());
    handle.create_global::<Desktop, WlDataDeviceManager, ()>(3, ());
    handle.create_global::<Desktop, XdgWmBase, ()>(5, ());
    handle.create_global::<Desktop, ZwlrLayerShellV1, ()>(4, ());
    handle.create_global::<Desktop, ExtSessionLockManagerV1, ()>(1, ());
    handle.create_global::<Desktop, ZwpRelativePointerManagerV1, ()>(1, ());
    handle.create_global::<Desktop, ZwpPointerConstraintsV1, ()>(1, ());
    handle.create_global::<Desktop, ZxdgOutputManagerV1, ()>(3, ());
    handle.create_global::<Desktop, ZxdgDecorationManagerV1, ()>(1, ());
    handle.create_global::<Desktop, ZwpPrimarySelectionDeviceManagerV1, ()>(1, ());
    handle.create_global::<Desktop, WpViewporter, ()>(1, ());
}

fn main() {
    let path = std::env::args().nth(1).expect("usage: desktop SOCKET");
    let socket = ListeningSocket::bind_absolute(path.into()).expect("the socket can be bound");
    let mut display: Display<Desktop> = Display::new().expect("a display");
    let mut handle = display.handle();
    create_globals(&handle);
    println!("ready");
    loop {
        wait_for(&[&socket, &display], -1);
        while let Ok(Some(stream)) = socket.accept() {
            handle
                .insert_client(stream, Arc::new(OfClient::default()))
                .expect("a client can be served");
        }
        display.dispatch_clients(&mut Desktop).expect("clients can be read");
        display.flush_clients().expect("clients can be written");
    }
}
