//! What a game's processor asks of its bus, made up, and the same in every run.

/// One access of the processor.
#[derive(Clone, Copy)]
pub enum Access {
    Read(u16),
    Write(u16, u8),
}

/// Of 100 accesses: 68 fetches from ROM, 9 reads of WRAM, 6 of high memory, 2 of registers; 8 writes to WRAM, 4 to high memory, 3 to VRAM.
pub const FETCHES: u32 = 68;

/// Random numbers, and where the processor fetches.
pub struct Pattern {
    seed: u32,
    pc: u16,
}

impl Pattern {
    pub fn new() -> Pattern {
        Pattern { seed: 12345, pc: 0x0150 }
    }

    /// Below `bound`.
    pub fn below(&mut self, bound: u32) -> u32 {
        self.seed = self.seed.wrapping_mul(1_103_515_245).wrapping_add(12345);
        (self.seed >> 8) % bound
    }

    fn within(&mut self, first: u16, len: u16) -> u16 {
        first + self.below(len.into()) as u16
    }

    fn byte(&mut self) -> u8 {
        self.below(256) as u8
    }

    /// The next byte of the game's code; one in 16 is somewhere else.
    pub fn fetch(&mut self) -> u16 {
        if self.below(16) == 0 {
            self.pc = self.within(0x0150, 0x7000);
        }
        self.pc += 1;
        self.pc
    }

    /// An access that is no fetch.
    pub fn data(&mut self) -> Access {
        match self.below(100 - FETCHES) {
            0..=8 => Access::Read(self.within(0xC000, 0x2000)),
            9..=14 => Access::Read(self.within(0xFF80, 0x7F)),
            15..=16 => Access::Read([0xFF44, 0xFF41, 0xFF0F, 0xFF00, 0xFF04, 0xFF05][self.below(6) as usize]),
            17..=24 => Access::Write(self.within(0xC000, 0x2000), self.byte()),
            25..=28 => Access::Write(self.within(0xFF80, 0x7F), self.byte()),
            _ => Access::Write(self.within(0x8000, 0x2000), self.byte()),
        }
    }

    pub fn access(&mut self) -> Access {
        if self.below(100) < FETCHES {
            Access::Read(self.fetch())
        } else {
            self.data()
        }
    }
}

impl Default for Pattern {
    fn default() -> Pattern {
        Pattern::new()
    }
}
