use super::interrupt::Interrupt;
use super::memory::Memory;
use crate::button::Button;
use crate::entries::*;
use crate::refusal::{done, unless, Refusal};

/// Calls on the state alone. Where no refusal is named, nothing refuses them.
impl Memory {
    /// Raw: the page FF00..FFFF as it is stored, with none of a read's rules. Refused by `Outside` below it.
    #[inline]
    pub fn load(&self, index: u16) -> Result<u8, Refusal> {
        let mut value = 0;
        unless(Refusal::Outside, pouch_load(&self.image, index, &mut value)).map(|()| value as u8)
    }

    /// Raw, as `load`: with none of a write's rules. Refused by `Outside` below FF00.
    #[inline]
    pub fn store(&mut self, index: u16, value: u8) -> Result<(), Refusal> {
        unless(Refusal::Outside, pouch_store(&mut self.image, index, value))
    }

    /// What FF00 answers from, a bit for each button that is up: Right, Left, Up, Down, A, B, Select, Start from bit 0. `update_joypad` sets
    /// it again.
    #[inline]
    pub fn set_joypad_state(&mut self, joypad_state: u8) {
        done(pouch_set_joypad_state(&mut self.image, joypad_state));
    }

    /// Whether A, B, Start and Select answer at FF00.
    #[inline]
    pub fn are_action_keys_enabled(&self) -> bool {
        self.ask(pouch_are_action_keys_enabled) == 1
    }

    /// Whether the directions answer at FF00.
    #[inline]
    pub fn are_direction_keys_enabled(&self) -> bool {
        self.ask(pouch_are_direction_keys_enabled) == 1
    }

    /// The interrupt that is served first, if one is requested and enabled.
    #[inline]
    pub fn get_interrupts(&self) -> Option<Interrupt> {
        Interrupt::from_number(self.ask(pouch_get_interrupts))
    }

    /// Sets an interrupt's bit in FF0F.
    #[inline]
    pub fn request_interrupt(&mut self, interrupt: Interrupt) {
        done(pouch_request_interrupt(&mut self.image, interrupt as u8));
    }

    /// Clears an interrupt's bit in FF0F.
    #[inline]
    pub fn remove_interrupt(&mut self, interrupt: Interrupt) {
        done(pouch_remove_interrupt(&mut self.image, interrupt as u8));
    }

    /// Whether a transfer by blocks is on: the host then calls `do_hdma` at each line's end.
    #[inline]
    pub fn is_hdma_enabled(&self) -> bool {
        self.ask(pouch_is_hdma_enabled) == 1
    }
}

/// What `Timer` and `Controller` call. A host that has the bus at hand may call it itself.
impl Memory {
    /// As `Timer::update`. Refused by `TooManyCycles` over 65,536.
    #[inline]
    pub fn update_timer(&mut self, cycles: u32) -> Result<(), Refusal> {
        unless(Refusal::TooManyCycles, pouch_update_timer(&mut self.image, cycles))
    }

    /// How many cycles are left until TIMA overflows and requests its interrupt: an update by fewer does not make it, one by as many does. `None`
    /// while TIMA does not count. The number may be more than the 65,536 that one update takes.
    #[inline]
    pub fn cycles_to_overflow(&self) -> Option<u32> {
        let mut cycles = 0;
        done(pouch_cycles_to_overflow(&self.image, &mut cycles));
        (cycles != u32::MAX).then_some(cycles)
    }

    /// A button goes down. The game sees it after `update_joypad`.
    #[inline]
    pub fn press(&mut self, button: Button) {
        done(pouch_press(&mut self.image, button as u8));
    }

    /// A button goes up. The game sees it after `update_joypad`.
    #[inline]
    pub fn release(&mut self, button: Button) {
        done(pouch_release(&mut self.image, button as u8));
    }

    /// Shows the buttons to FF00, and requests the interrupt of a new press whose kind of key answers.
    #[inline]
    pub fn update_joypad(&mut self) {
        done(pouch_update_joypad(&mut self.image));
    }
}
