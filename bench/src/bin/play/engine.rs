//! What both loops share: the processor's side of an interrupt, and the screen's modes.

use crate::bus::Bus;
use pouchrattle::{HostNumbers, Interrupt};

const STACK: u16 = 0xDFFE;
const STATUS: u16 = 0xFF41;

/// How many steps an interrupt's code takes.
const SERVED_IN: u32 = 16;

/// For how many steps no interrupt is served, and a sum of all that was read: what the game has seen.
#[derive(Default)]
pub struct Processor {
    busy: u32,
    seen: u32,
}

impl Processor {
    /// The end of an interrupt's code takes the address to go on at from the stack.
    pub fn step<B: Bus>(&mut self, bus: &B) {
        if self.busy > 0 {
            self.busy -= 1;
            if self.busy == 0 {
                self.see(bus.read_word(STACK) as u8);
            }
        }
    }

    pub fn see(&mut self, byte: u8) {
        self.seen = self.seen.wrapping_mul(257).wrapping_add(u32::from(byte) + 1);
    }

    pub fn seen(&self) -> u32 {
        self.seen
    }

    pub fn serves(&self) -> bool {
        self.busy == 0
    }

    /// The address to go on at is put on the stack.
    pub fn serve<B: Bus>(&mut self, bus: &mut B, interrupt: Interrupt) {
        self.busy = SERVED_IN;
        bus.write_word(STACK, 0x0150 + u16::from(interrupt as u8));
        bus.remove_interrupt(interrupt);
    }
}

/// The cycles that a mode takes.
fn length(mode: u8) -> i32 {
    match mode {
        0 => 204,
        1 => 456,
        2 => 80,
        _ => 172,
    }
}

/// Cycles pass on the screen. Whether its mode ends, or its delay.
#[inline(always)]
pub fn pass(numbers: &mut HostNumbers, cycles: i32) -> bool {
    if numbers.screen_disabled {
        let waits = numbers.screen_enable_delay_cycles > 0;
        if waits {
            numbers.screen_enable_delay_cycles -= cycles;
        }
        waits && numbers.screen_enable_delay_cycles <= 0
    } else {
        numbers.cycles_counter += cycles;
        numbers.cycles_counter >= length(numbers.lcd_status_mode)
    }
}

/// The next mode, told to the bus with all that goes with it but HDMA. The numbers are the bus's after that.
#[inline(never)]
pub fn next_mode<B: Bus>(bus: &mut B, mut numbers: HostNumbers) -> HostNumbers {
    let line = numbers.scan_line;
    if numbers.screen_disabled {
        numbers = HostNumbers { lcd_status_mode: 2, ..HostNumbers::default() };
    } else {
        numbers.cycles_counter -= length(numbers.lcd_status_mode);
        (numbers.lcd_status_mode, numbers.scan_line) = match (numbers.lcd_status_mode, line) {
            (2, _) => (3, line),
            (3, _) => (0, line),
            (0, 143) => (1, 144),
            (1, 153) => (2, 0),
            (mode, _) => (if mode == 0 { 2 } else { 1 }, line + 1),
        };
    }
    bus.set_numbers(numbers);

    let mode = numbers.lcd_status_mode;
    let status = bus.load(STATUS) & 0xFC | mode;
    bus.store(STATUS, status);
    // Bits 3 to 5 ask for the screen's interrupt at modes 0 to 2.
    if mode < 3 && status & (8 << mode) != 0 {
        bus.request_interrupt(Interrupt::Lcd);
    }
    if mode == 1 && numbers.scan_line == 144 {
        bus.request_interrupt(Interrupt::Vblank);
    }
    if numbers.scan_line != line {
        bus.compare_ly_to_lyc();
    }
    bus.numbers()
}
