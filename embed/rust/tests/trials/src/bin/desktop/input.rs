//! What the user does.

use std::collections::VecDeque;
use std::os::fd::AsFd;

use trials::process::file;
use wayland_server::protocol::wl_keyboard::{KeyState, KeymapFormat, WlKeyboard};
use wayland_server::protocol::wl_pointer::{Axis, AxisSource, ButtonState};
use wayland_server::Resource;

use crate::scene::Scene;

const KEYMAP: &str = include_str!("keymap.xkb");

const LEFT_BUTTON: u32 = 0x110;
const KEY_C: u32 = 46;
const KEY_N: u32 = 49;
const KEY_P: u32 = 25;
const KEY_ENTER: u32 = 28;
const KEY_CONTROL: u32 = 29;
const CONTROL: u32 = 4;

pub enum Act {
    Enter,
    Key(u32),
    Move,
    Scroll,
    Click,
    /// A click while the control key is held.
    ControlClick,
    /// What was dragged by a click is dropped.
    Drop,
    Leave,
}

impl Act {
    pub fn all() -> VecDeque<Self> {
        [
            Self::Enter,
            Self::Move,
            Self::Scroll,
            Self::Key(KEY_C),
            Self::Key(KEY_N),
            Self::Key(KEY_P),
            Self::Key(KEY_ENTER),
            Self::Click,
            Self::Move,
            Self::ControlClick,
            Self::Move,
            Self::Click,
            Self::Leave,
        ]
        .into()
    }
}

/// A new keyboard.
pub fn begin_keyboard(keyboard: &WlKeyboard) {
    let keymap = file(&format!("{KEYMAP}\0"));
    keyboard.keymap(KeymapFormat::XkbV1, keymap.as_fd(), KEYMAP.len() as u32 + 1);
    if keyboard.version() >= 4 {
        keyboard.repeat_info(25, 600);
    }
}

impl Scene {
    pub fn act(&mut self, act: Act) {
        match act {
            Act::Enter => self.enter(),
            Act::Leave => self.leave(),
            Act::Key(key) => self.press(key),
            Act::Move => self.move_pointer(),
            Act::Scroll => self.scroll(),
            Act::Click => self.click(),
            Act::ControlClick => {
                self.control(KeyState::Pressed);
                self.click();
                self.control(KeyState::Released);
            }
            Act::Drop => self.drop_dragged(),
        }
    }

    fn enter(&mut self) {
        let (serial, Some(focus)) = (self.next_serial(), self.focus()) else { return };
        for pointer in &self.pointers {
            pointer.enter(serial, &focus, 10.0, 12.0);
        }
        self.end_frame();
        for keyboard in &self.keyboards {
            keyboard.enter(serial, &focus, KEY_ENTER.to_ne_bytes().into());
            keyboard.modifiers(serial, 0, 0, 0, 0);
        }
    }

    fn leave(&mut self) {
        let (serial, Some(focus)) = (self.next_serial(), self.focus()) else { return };
        for pointer in &self.pointers {
            pointer.leave(serial, &focus);
        }
        self.end_frame();
        for keyboard in &self.keyboards {
            keyboard.leave(serial, &focus);
        }
    }

    /// What belongs together has come.
    fn end_frame(&self) {
        for pointer in self.pointers.iter().filter(|it| it.version() >= 5) {
            pointer.frame();
        }
    }

    fn press(&mut self, key: u32) {
        for state in [KeyState::Pressed, KeyState::Released] {
            let serial = self.next_serial();
            for keyboard in &self.keyboards {
                keyboard.key(serial, serial, key, state);
            }
        }
    }

    fn control(&mut self, state: KeyState) {
        let serial = self.next_serial();
        let held = if state == KeyState::Pressed { CONTROL } else { 0 };
        for keyboard in &self.keyboards {
            keyboard.key(serial, serial, KEY_CONTROL, state);
            keyboard.modifiers(serial, held, 0, 0, 0);
        }
    }

    fn move_pointer(&mut self) {
        let time = self.next_serial();
        for pointer in &self.pointers {
            pointer.motion(time, 11.5, 13.25);
        }
        for relative in &self.relative {
            relative.relative_motion(0, time, 1.5, 1.25, 3.0, 2.5);
        }
        self.end_frame();
    }

    fn scroll(&mut self) {
        let time = self.next_serial();
        for pointer in self.pointers.iter().filter(|it| it.version() >= 5) {
            pointer.axis_source(AxisSource::Wheel);
            pointer.axis_discrete(Axis::VerticalScroll, 1);
            pointer.axis(time, Axis::VerticalScroll, 10.0);
        }
        self.end_frame();
    }

    fn click(&mut self) {
        for state in [ButtonState::Pressed, ButtonState::Released] {
            let serial = self.next_serial();
            for pointer in &self.pointers {
                pointer.button(serial, serial, LEFT_BUTTON, state);
            }
            self.end_frame();
        }
    }

    fn drop_dragged(&mut self) {
        for device in &self.devices {
            device.drop();
        }
        if let Some(source) = self.dragged.as_ref().filter(|it| it.is_alive()) {
            source.dnd_drop_performed();
        }
    }
}
