//! What binding a global and each request do.

use std::os::fd::AsFd;
use std::sync::Mutex;

use wayland_protocols::ext::session_lock::v1::server::{
    ext_session_lock_manager_v1::{self, ExtSessionLockManagerV1},
    ext_session_lock_surface_v1::ExtSessionLockSurfaceV1,
    ext_session_lock_v1::{self, ExtSessionLockV1},
};
use wayland_protocols::wp::pointer_constraints::zv1::server::{
    zwp_confined_pointer_v1::ZwpConfinedPointerV1,
    zwp_locked_pointer_v1::ZwpLockedPointerV1,
    zwp_pointer_constraints_v1::{self, ZwpPointerConstraintsV1},
};
use wayland_protocols::wp::primary_selection::zv1::server::{
    zwp_primary_selection_device_manager_v1::{self, ZwpPrimarySelectionDeviceManagerV1},
    zwp_primary_selection_device_v1::{self, ZwpPrimarySelectionDeviceV1},
    zwp_primary_selection_offer_v1::{self, ZwpPrimarySelectionOfferV1},
    zwp_primary_selection_source_v1::{self, ZwpPrimarySelectionSourceV1},
};
use wayland_protocols::wp::relative_pointer::zv1::server::{
    zwp_relative_pointer_manager_v1::{self, ZwpRelativePointerManagerV1},
    zwp_relative_pointer_v1::ZwpRelativePointerV1,
};
use wayland_protocols::wp::viewporter::server::{
    wp_viewport::WpViewport,
    wp_viewporter::{self, WpViewporter},
};
use wayland_protocols::xdg::decoration::zv1::server::{
    zxdg_decoration_manager_v1::{self, ZxdgDecorationManagerV1},
    zxdg_toplevel_decoration_v1::{Mode, ZxdgToplevelDecorationV1},
};
use wayland_protocols::xdg::shell::server::{
    xdg_popup::XdgPopup,
    xdg_positioner::XdgPositioner,
    xdg_surface::{self, XdgSurface},
    xdg_toplevel::XdgToplevel,
    xdg_wm_base::{self, XdgWmBase},
};
use wayland_protocols::xdg::xdg_output::zv1::server::{
    zxdg_output_manager_v1::{self, ZxdgOutputManagerV1},
    zxdg_output_v1::ZxdgOutputV1,
};
use wayland_protocols_wlr::layer_shell::v1::server::{
    zwlr_layer_shell_v1::{self, ZwlrLayerShellV1},
    zwlr_layer_surface_v1::ZwlrLayerSurfaceV1,
};
use wayland_server::backend::ClientId;
use wayland_server::protocol::{
    wl_buffer::WlBuffer,
    wl_callback::WlCallback,
    wl_compositor::{self, WlCompositor},
    wl_data_device::{self, WlDataDevice},
    wl_data_device_manager::{self, DndAction, WlDataDeviceManager},
    wl_data_offer::{self, WlDataOffer},
    wl_data_source::{self, WlDataSource},
    wl_keyboard::WlKeyboard,
    wl_output::{self, WlOutput},
    wl_pointer::WlPointer,
    wl_region::WlRegion,
    wl_seat::{self, WlSeat},
    wl_shm::{self, WlShm},
    wl_shm_pool::{self, WlShmPool},
    wl_subcompositor::{self, WlSubcompositor},
    wl_subsurface::WlSubsurface,
    wl_surface::{self, WlSurface},
    wl_touch::WlTouch,
};
use wayland_server::{Client, DataInit, Dispatch, DisplayHandle, GlobalDispatch, New, Resource};

use crate::input::{begin_keyboard, Act};
use crate::scene::{Role, Scene, Source, Surface};
use crate::{Desktop, OfClient};

fn scene(client: &Client) -> &Mutex<Scene> {
    &client.get_data::<OfClient>().expect("each client has a scene").0
}

/// A global: what its objects are told when they are bound.
macro_rules! global {
    ($interface:ty, |$scene:ident, $object:ident| $greeting:expr) => {
        impl GlobalDispatch<$interface, ()> for Desktop {
            fn bind(
                _: &mut Self,
                _: &DisplayHandle,
                client: &Client,
                new: New<$interface>,
                _: &(),
                init: &mut DataInit<'_, Self>,
            ) {
                let ($object, mut $scene) = (init.init(new, ()), scene(client).lock().unwrap());
                println!("{} version {} is bound", $object.id(), $object.version());
                let _ = &mut $scene;
                $greeting
            }
        }
    };
    ($($interface:ty),*) => {
        $(global!($interface, |scene, object| ());)*
    };
}

global! { WlCompositor, WlSubcompositor, WlDataDeviceManager, ZwlrLayerShellV1, ExtSessionLockManagerV1 }
global! { ZwpRelativePointerManagerV1, ZwpPointerConstraintsV1, ZxdgOutputManagerV1, ZxdgDecorationManagerV1 }
global! { ZwpPrimarySelectionDeviceManagerV1, WpViewporter }

global! { XdgWmBase, |scene, wm_base| scene.wm_base = Some(wm_base) }

global! { WlShm, |scene, shm| {
    shm.format(wl_shm::Format::Argb8888);
    shm.format(wl_shm::Format::Xrgb8888);
}}

global! { WlSeat, |scene, seat| {
    seat.capabilities(wl_seat::Capability::Pointer | wl_seat::Capability::Keyboard);
    if seat.version() >= 2 {
        seat.name("seat of the desktop".into());
    }
    scene.has_seat = true;
}}

global! { WlOutput, |scene, output| {
    let (subpixel, transform) = (wl_output::Subpixel::Unknown, wl_output::Transform::Normal);
    output.geometry(0, 0, 300, 200, subpixel, "maker".into(), "model".into(), transform);
    output.mode(wl_output::Mode::Current | wl_output::Mode::Preferred, 800, 600, 60000);
    if output.version() >= 2 {
        output.scale(1);
    }
    if output.version() >= 4 {
        output.name("SCREEN-1".into());
        output.description("a screen of the desktop".into());
    }
    if output.version() >= 2 {
        output.done();
    }
    scene.output = Some(output);
}}

/// What an object's requests do beside being printed, and what happens at its end.
macro_rules! requests {
    ($interface:ty, $data:ty, |$client:ident, $scene:ident, $object:ident, $request:ident, $kept:ident, $dh:ident, $init:ident| $body:expr
        $(, end |$at_end:ident, $gone:ident| $end:expr)?) => {
        #[allow(unused_variables, unused_mut)]
        impl Dispatch<$interface, $data> for Desktop {
            fn request(
                _: &mut Self,
                $client: &Client,
                $object: &$interface,
                $request: <$interface as Resource>::Request,
                $kept: &$data,
                $dh: &DisplayHandle,
                $init: &mut DataInit<'_, Self>,
            ) {
                let name = <$interface>::interface().requests[$request.opcode() as usize].name;
                println!("{}.{name}", $object.id());
                let mut $scene = scene($client).lock().unwrap();
                $body
            }
            $(
                fn destroyed(_: &mut Self, _: ClientId, $gone: &$interface, _: &$data) {
                    let Some(client) = $gone.client() else { return };
                    let mut $at_end = scene(&client).lock().unwrap();
                    $end
                }
            )?
        }
    };
    ($($interface:ty),*) => {
        $(requests!($interface, (), |client, scene, object, request, kept, dh, init| ());)*
    };
}

requests! { WlBuffer, WlRegion, WlSubsurface, WlTouch, WlOutput }
requests! { XdgPopup, XdgPositioner, XdgToplevel, ZwlrLayerSurfaceV1, ZxdgToplevelDecorationV1, ZxdgOutputV1 }
requests! { ExtSessionLockSurfaceV1, ZwpConfinedPointerV1, ZwpLockedPointerV1, WpViewport }

impl Dispatch<WlCallback, ()> for Desktop {
    fn request(
        _: &mut Self,
        _: &Client,
        _: &WlCallback,
        request: wayland_server::protocol::wl_callback::Request,
        _: &(),
        _: &DisplayHandle,
        _: &mut DataInit<'_, Self>,
    ) {
        unreachable!("a callback has no request, but {request:?} came");
    }
}

requests! { WlCompositor, (), |client, scene, compositor, request, kept, dh, init| match request {
    wl_compositor::Request::CreateSurface { id } => drop(init.init(id, Surface::default())),
    wl_compositor::Request::CreateRegion { id } => drop(init.init(id, ())),
    _ => {}
}}

requests! { WlSubcompositor, (), |client, scene, subcompositor, request, kept, dh, init| {
    if let wl_subcompositor::Request::GetSubsurface { id, .. } = request {
        init.init(id, ());
    }
}}

requests! { WlSurface, Surface, |client, scene, surface, request, kept, dh, init| match request {
    wl_surface::Request::Attach { buffer, .. } => kept.lock().unwrap().attached = buffer,
    wl_surface::Request::Frame { callback } => scene.frame(init.init(callback, ())),
    wl_surface::Request::Commit => scene.commit(surface),
    _ => {}
}}

requests! { WlShm, (), |client, scene, shm, request, kept, dh, init| {
    if let wl_shm::Request::CreatePool { id, .. } = request {
        init.init(id, ());
    }
}}

requests! { WlShmPool, (), |client, scene, pool, request, kept, dh, init| {
    if let wl_shm_pool::Request::CreateBuffer { id, .. } = request {
        init.init(id, ());
    }
}}

requests! { WlSeat, (), |client, scene, seat, request, kept, dh, init| match request {
    wl_seat::Request::GetKeyboard { id } => {
        let keyboard = init.init(id, ());
        begin_keyboard(&keyboard);
        scene.keyboards.push(keyboard);
    }
    wl_seat::Request::GetPointer { id } => {
        scene.pointers.push(init.init(id, ()));
        scene.begin_if_ready();
    }
    wl_seat::Request::GetTouch { .. } => seat.post_error(wl_seat::Error::MissingCapability, "there is no touch screen"),
    _ => {}
}}

requests! {
    WlPointer, (), |client, scene, pointer, request, kept, dh, init| (),
    end |scene, pointer| scene.pointers.retain(|it| it != pointer)
}

requests! {
    WlKeyboard, (), |client, scene, keyboard, request, kept, dh, init| (),
    end |scene, keyboard| scene.keyboards.retain(|it| it != keyboard)
}

// ---- roles of surfaces

requests! { XdgWmBase, (), |client, scene, wm_base, request, kept, dh, init| match request {
    xdg_wm_base::Request::GetXdgSurface { id, surface } => drop(init.init(id, surface)),
    xdg_wm_base::Request::CreatePositioner { id } => drop(init.init(id, ())),
    xdg_wm_base::Request::Pong { .. } => scene.pong(),
    _ => {}
}}

fn give_role(surface: &WlSurface, role: Role) {
    surface.data::<Surface>().expect("surfaces have their state").lock().unwrap().role = Some(role);
}

requests! { XdgSurface, WlSurface, |client, scene, xdg, request, surface, dh, init| match request {
    xdg_surface::Request::GetToplevel { id } => give_role(surface, Role::Toplevel(xdg.clone(), init.init(id, ()))),
    xdg_surface::Request::GetPopup { id, .. } => drop(init.init(id, ())),
    _ => {}
}}

requests! { ZxdgDecorationManagerV1, (), |client, scene, manager, request, kept, dh, init| {
    if let zxdg_decoration_manager_v1::Request::GetToplevelDecoration { id, .. } = request {
        init.init(id, ()).configure(Mode::ServerSide);
    }
}}

requests! { ZwlrLayerShellV1, (), |client, scene, shell, request, kept, dh, init| {
    if let zwlr_layer_shell_v1::Request::GetLayerSurface { id, surface, .. } = request {
        give_role(&surface, Role::Layer(init.init(id, ())));
    }
}}

requests! { ExtSessionLockManagerV1, (), |client, scene, manager, request, kept, dh, init| {
    if let ext_session_lock_manager_v1::Request::Lock { id } = request {
        init.init(id, ()).locked();
    }
}}

requests! { ExtSessionLockV1, (), |client, scene, lock, request, kept, dh, init| {
    if let ext_session_lock_v1::Request::GetLockSurface { id, surface, .. } = request {
        scene.give_lock(&surface, init.init(id, ()));
    }
}}

requests! { WpViewporter, (), |client, scene, viewporter, request, kept, dh, init| {
    if let wp_viewporter::Request::GetViewport { id, .. } = request {
        init.init(id, ());
    }
}}

requests! { ZxdgOutputManagerV1, (), |client, scene, manager, request, kept, dh, init| {
    if let zxdg_output_manager_v1::Request::GetXdgOutput { id, output } = request {
        let xdg = init.init(id, ());
        xdg.logical_position(0, 0);
        xdg.logical_size(800, 600);
        if xdg.version() >= 2 {
            xdg.name("SCREEN-1".into());
            xdg.description("a screen of the desktop".into());
        }
        if output.version() >= 2 {
            output.done();
        }
    }
}}

// ---- the pointer

requests! { ZwpRelativePointerManagerV1, (), |client, scene, manager, request, kept, dh, init| {
    if let zwp_relative_pointer_manager_v1::Request::GetRelativePointer { id, .. } = request {
        scene.relative.push(init.init(id, ()));
    }
}}

requests! {
    ZwpRelativePointerV1, (), |client, scene, relative, request, kept, dh, init| (),
    end |scene, relative| scene.relative.retain(|it| it != relative)
}

requests! { ZwpPointerConstraintsV1, (), |client, scene, constraints, request, kept, dh, init| match request {
    zwp_pointer_constraints_v1::Request::LockPointer { id, .. } => init.init(id, ()).locked(),
    zwp_pointer_constraints_v1::Request::ConfinePointer { id, .. } => init.init(id, ()).confined(),
    _ => {}
}}

// ---- selections, drag and drop

requests! { WlDataDeviceManager, (), |client, scene, manager, request, kept, dh, init| match request {
    wl_data_device_manager::Request::CreateDataSource { id } => drop(init.init(id, Source::default())),
    wl_data_device_manager::Request::GetDataDevice { id, .. } => scene.devices.push(init.init(id, ())),
    _ => {}
}}

requests! { WlDataSource, Source, |client, scene, source, request, types, dh, init| {
    if let wl_data_source::Request::Offer { mime_type } = request {
        types.lock().unwrap().push(mime_type);
    }
}}

/// An offer of what a source has, for a device of its client.
fn offer(
    client: &Client,
    dh: &DisplayHandle,
    device: &WlDataDevice,
    source: &WlDataSource,
) -> Option<WlDataOffer> {
    let offer = client
        .create_resource::<WlDataOffer, WlDataSource, Desktop>(dh, device.version(), source.clone())
        .ok()?;
    device.data_offer(&offer);
    for kind in source.data::<Source>()?.lock().unwrap().iter() {
        offer.offer(kind.clone());
    }
    Some(offer)
}

fn select(scene: &Scene, client: &Client, dh: &DisplayHandle, source: Option<&WlDataSource>) {
    for device in &scene.devices {
        let offer = source.and_then(|it| offer(client, dh, device, it));
        device.selection(offer.as_ref());
    }
}

/// The pointer has a surface's data with it from now on, and is over that surface.
fn drag(scene: &mut Scene, client: &Client, dh: &DisplayHandle, source: Option<WlDataSource>) {
    let (serial, Some(focus)) = (scene.next_serial(), scene.focus()) else { return };
    for device in &scene.devices {
        let offer = source.as_ref().and_then(|it| offer(client, dh, device, it));
        if let Some(offer) = offer.as_ref().filter(|it| it.version() >= 3) {
            offer.source_actions(DndAction::Copy);
        }
        device.enter(serial, &focus, 3.0, 4.5, offer.as_ref());
        device.motion(serial, 5.0, 5.25);
    }
    scene.dragged = source;
    scene.next(Act::Drop);
}

requests! {
    WlDataDevice, (), |client, scene, device, request, kept, dh, init| match request {
        wl_data_device::Request::SetSelection { source, .. } => select(&scene, client, dh, source.as_ref()),
        wl_data_device::Request::StartDrag { source, .. } => drag(&mut scene, client, dh, source),
        _ => {}
    },
    end |scene, device| scene.devices.retain(|it| it != device)
}

requests! { WlDataOffer, WlDataSource, |client, scene, offer, request, source, dh, init| {
    if !source.is_alive() {
        return;
    }
    match request {
        wl_data_offer::Request::Receive { mime_type, fd } => source.send(mime_type, fd.as_fd()),
        wl_data_offer::Request::Accept { mime_type, .. } => source.target(mime_type),
        wl_data_offer::Request::SetActions { .. } => {
            offer.action(DndAction::Copy);
            source.action(DndAction::Copy);
        }
        wl_data_offer::Request::Finish => source.dnd_finished(),
        _ => {}
    }
}}

requests! { ZwpPrimarySelectionDeviceManagerV1, (), |client, scene, manager, request, kept, dh, init| match request {
    zwp_primary_selection_device_manager_v1::Request::CreateSource { id } => drop(init.init(id, Source::default())),
    zwp_primary_selection_device_manager_v1::Request::GetDevice { id, .. } => scene.primary.push(init.init(id, ())),
    _ => {}
}}

requests! { ZwpPrimarySelectionSourceV1, Source, |client, scene, source, request, types, dh, init| {
    if let zwp_primary_selection_source_v1::Request::Offer { mime_type } = request {
        types.lock().unwrap().push(mime_type);
    }
}}

fn select_primary(
    scene: &Scene,
    client: &Client,
    dh: &DisplayHandle,
    source: Option<&ZwpPrimarySelectionSourceV1>,
) {
    for device in &scene.primary {
        let made = source.and_then(|it| {
            client.create_resource::<ZwpPrimarySelectionOfferV1, ZwpPrimarySelectionSourceV1, Desktop>(dh, device.version(), it.clone()).ok()
        });
        if let (Some(offer), Some(source)) = (&made, source) {
            device.data_offer(offer);
            let types = source.data::<Source>().expect("sources have their types").lock().unwrap();
            types.iter().for_each(|it| offer.offer(it.clone()));
        }
        device.selection(made.as_ref());
    }
}

requests! {
    ZwpPrimarySelectionDeviceV1, (), |client, scene, device, request, kept, dh, init| {
        if let zwp_primary_selection_device_v1::Request::SetSelection { source, .. } = request {
            select_primary(&scene, client, dh, source.as_ref());
        }
    },
    end |scene, device| scene.primary.retain(|it| it != device)
}

requests! { ZwpPrimarySelectionOfferV1, ZwpPrimarySelectionSourceV1, |client, scene, offer, request, source, dh, init| {
    if let zwp_primary_selection_offer_v1::Request::Receive { mime_type, fd } = request {
        if source.is_alive() {
            source.send(mime_type, fd.as_fd());
        }
    }
}}
