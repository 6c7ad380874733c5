//! The made-up game: a list of steps, each what one instruction of the processor asks of the bus.

use bench::pattern::{Access, Pattern};

/// The first `fetches` of `fetch` are read, then `data` is done.
pub struct Step {
    fetch: [u16; 2],
    fetches: usize,
    data: Option<Access>,
    pub button: Option<Button>,
}

#[derive(Clone, Copy)]
pub enum Button {
    Press,
    Release,
}

/// A frame is 70,224 cycles; a step takes 8.7 of them on average.
pub const FRAME: usize = 8100;

/// Every so many steps the game writes to a register.
const BETWEEN_WRITES: usize = 128;

/// Some 63 of them are a frame's: scrolling, palettes, keys, banks, a save byte, an OAM DMA, an HDMA of 8 blocks, the timer. The last two turn the screen
/// off and on again, in the frame after the first.
const WRITES: [(u16, u8); 66] = {
    let mut writes = [(0xFF43, 0x08); 66];
    let mut at = 0;
    while at < 64 {
        writes[at] = match at % 16 {
            0 => (0xFF42, at as u8),
            1 => (0x2000, 0x01),
            2 => (0xFF00, 0x20),
            3 => (0xFF00, 0x10),
            4 => (0xFF47, 0xE4),
            5 => (0xFF45, 16 + at as u8),
            6 => (0xFF41, 0x48),
            7 => (0xA000 + at as u16, at as u8),
            8 => (0xFF68, 0x80),
            9 => (0xFF69, at as u8),
            10 => (0xFF4F, (at / 16 % 2) as u8),
            11 => (0xFF70, (at / 16) as u8),
            _ => (0xFF43, at as u8),
        };
        at += 1;
    }
    writes[12] = (0xFF46, 0xC1);
    writes[13] = (0xFF51, 0x20);
    writes[14] = (0xFF55, 0x87);
    writes[28] = (0xFF0F, 0x00);
    writes[29] = (0xFF40, 0xB1);
    writes[44] = (0xFF06, 0x80);
    writes[45] = (0xFF04, 0x00);
    writes[60] = (0xFF07, 0x05);
    writes[64] = (0xFF40, 0x11);
    writes[65] = (0xFF40, 0x91);
    writes
};

/// The game's first writes: interrupts of screen, timer and buttons; the screen's interrupt at a line.
pub const FIRST: [(u16, u8); 3] = [(0xFFFF, 0x17), (0xFF45, 0x28), (0xFF41, 0x40)];

pub fn steps(count: usize) -> Vec<Step> {
    let mut pattern = Pattern::new();
    (0..count).map(|at| step(&mut pattern, at)).collect()
}

fn step(pattern: &mut Pattern, at: usize) -> Step {
    // Of 100 steps, 48 have a second byte of code and 69 an access to data: the shares of `Pattern`.
    let fetch = [pattern.fetch(), pattern.fetch()];
    let fetches = if pattern.below(100) < 48 { 2 } else { 1 };
    let data = if at % BETWEEN_WRITES == BETWEEN_WRITES - 1 {
        let (index, value) = WRITES[at / BETWEEN_WRITES % WRITES.len()];
        Some(Access::Write(index, value))
    } else if pattern.below(100) < 69 {
        Some(pattern.data())
    } else {
        None
    };
    let button = match at % (2 * FRAME) {
        // While the game asks for the other keys: the interrupt comes with a later write.
        2500 => Some(Button::Press),
        9000 => Some(Button::Release),
        _ => None,
    };
    Step { fetch, fetches, data, button }
}

impl Step {
    pub fn fetches(&self) -> &[u16] {
        &self.fetch[..self.fetches]
    }

    pub fn data(&self) -> Option<Access> {
        self.data
    }

    /// Four for each access.
    pub fn cycles(&self) -> i32 {
        4 * (self.fetches as i32 + i32::from(self.data.is_some()))
    }
}
