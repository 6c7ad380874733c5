//! The joypad.

use crate::{Button, Memory};

/// What was pressed and released since the last update. In the Rust the controller holds which buttons are down, and two marks; here these
/// are in the bus's state, which `press` and `release` are not given: they wait for `update`. Nothing reads that part of the state before.
#[derive(Clone, Debug, Default)]
pub struct Controller {
    waiting: Vec<Change>,
}

#[derive(Clone, Copy, Debug)]
enum Change {
    Press(Button),
    Release(Button),
}

impl Controller {
    /// Nothing pressed or released yet.
    #[inline]
    pub const fn new() -> Controller {
        Controller { waiting: Vec::new() }
    }

    /// A button goes down. The game sees it after `update`.
    #[inline]
    pub fn press(&mut self, button: Button) {
        self.waiting.push(Change::Press(button));
    }

    /// A button goes up. The game sees it after `update`.
    #[inline]
    pub fn release(&mut self, button: Button) {
        self.waiting.push(Change::Release(button));
    }

    /// Tells the bus what was pressed and released, in order, and shows the buttons to FF00; a new press requests its interrupt if its kind of
    /// key answers there. Nothing refuses it.
    #[inline]
    pub fn update(&mut self, memory: &mut Memory) {
        for change in self.waiting.drain(..) {
            match change {
                Change::Press(button) => memory.press(button),
                Change::Release(button) => memory.release(button),
            }
        }
        memory.update_joypad();
    }
}
