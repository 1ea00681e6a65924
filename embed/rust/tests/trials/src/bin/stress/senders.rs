//! Threads of the server that send events, make and destroy objects and globals, and kill clients.

use std::os::fd::AsFd;
use std::sync::atomic::Ordering::SeqCst;
use std::sync::Arc;
use std::time::{Duration, Instant};

use trials::process::file;
use wayland_server::backend::DisconnectReason;
use wayland_server::protocol::wl_callback::WlCallback;
use wayland_server::protocol::wl_data_device::WlDataDevice;
use wayland_server::protocol::wl_data_offer::WlDataOffer;
use wayland_server::protocol::wl_keyboard;
use wayland_server::protocol::wl_output::WlOutput;
use wayland_server::{Client, DisplayHandle, Resource};

use crate::server::{App, Own, Shared, When};

/// What each keymap has.
pub const KEYMAP: &str = "a keymap";

/// Of so many offers one kills its client.
const OFFERS_FOR_A_KILL: usize = 150;

/// Every other client is killed by an error.
fn kill(handle: &DisplayHandle, device: &WlDataDevice, client: &Client, number: usize) {
    if number % 2 == 1 {
        device.post_error(0u32, "an error");
    } else {
        handle.backend_handle().kill_client(client.id(), DisconnectReason::ConnectionClosed);
    }
}

/// Each device gets an offer, whose type is a number that grows. Now and then a client is killed.
pub fn offers(handle: &mut DisplayHandle, shared: &Arc<Shared>) {
    let all = shared.devices.lock().unwrap().clone();
    for device in &all {
        let Some(client) = device.client() else { continue };
        let made = client.create_resource::<WlDataOffer, Own, App>(
            handle,
            device.version(),
            Own::new(shared),
        );
        let Ok(offer) = made else {
            // The client has left, so nobody has the data.
            shared.counts.made.fetch_sub(1, SeqCst);
            continue;
        };
        let number = shared.counts.offers.fetch_add(1, SeqCst) + 1;
        device.data_offer(&offer);
        offer.offer(number.to_string());
        device.selection(Some(&offer));
        if number % OFFERS_FOR_A_KILL == 1 {
            let kills = shared.counts.kills.fetch_add(1, SeqCst);
            kill(handle, device, &client, kills);
        }
    }
    shared.devices.lock().unwrap().retain(Resource::is_alive);
}

/// Each keyboard gets a keymap; a global comes and goes; and each object of each client is looked at.
pub fn keymaps_and_globals(handle: &mut DisplayHandle, shared: &Arc<Shared>) {
    let (all, keymap) = (shared.keyboards.lock().unwrap().clone(), file(KEYMAP));
    for keyboard in &all {
        keyboard.keymap(wl_keyboard::KeymapFormat::XkbV1, keymap.as_fd(), KEYMAP.len() as u32);
    }
    shared.keyboards.lock().unwrap().retain(Resource::is_alive);
    let global = handle.create_global::<App, WlOutput, ()>(1, ());
    let _ = handle.flush_clients();
    handle.disable_global::<App>(global.clone());
    handle.remove_global::<App>(global);
    let backend = handle.backend_handle();
    let mut clients = Vec::new();
    backend.with_all_clients(|it| clients.push(it));
    for client in clients {
        let mut objects = Vec::new();
        let _ = backend.with_all_objects_for(client, |it| objects.push(it));
        for id in objects {
            let _ = backend.object_info(id);
        }
    }
}

pub fn frames(_: &mut DisplayHandle, shared: &Arc<Shared>) {
    let wait = if shared.when == When::Racy { Duration::ZERO } else { Duration::from_millis(20) };
    let due: Vec<(Instant, WlCallback)> = {
        let mut all = shared.callbacks.lock().unwrap();
        let (due, early) = all.drain(..).partition(|it| it.0.elapsed() >= wait);
        *all = early;
        due
    };
    for (_, callback) in due {
        callback.done(0);
    }
}
