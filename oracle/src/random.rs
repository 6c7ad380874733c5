//! A small generator (splitmix64): the same numbers on every machine.

pub struct Random(u64);

/// Bytes at which something tends to change.
const EDGES: [u8; 12] = [
    0x00, 0x01, 0x0A, 0x0F, 0x10, 0x1F, 0x20, 0x7F, 0x80, 0xF0, 0xFE, 0xFF,
];

impl Random {
    /// Each letter draws from a stream of its own, so that a new letter leaves
    /// the others' lists as they are.
    pub fn new(seed: u64, letter: char) -> Random {
        let mut random = Random(seed ^ (u64::from(letter) << 56));
        random.next();
        random
    }

    fn next(&mut self) -> u64 {
        self.0 = self.0.wrapping_add(0x9E37_79B9_7F4A_7C15);
        let mut z = self.0;
        z = (z ^ (z >> 30)).wrapping_mul(0xBF58_476D_1CE4_E5B9);
        z = (z ^ (z >> 27)).wrapping_mul(0x94D0_49BB_1331_11EB);
        z ^ (z >> 31)
    }

    /// A number below `limit`.
    pub fn below(&mut self, limit: u32) -> u32 {
        (((self.next() >> 32) * u64::from(limit)) >> 32) as u32
    }

    /// True once in `times`.
    pub fn once_in(&mut self, times: u32) -> bool {
        self.below(times) == 0
    }

    pub fn flag(&mut self) -> u8 {
        self.below(2) as u8
    }

    pub fn any_byte(&mut self) -> u8 {
        self.below(256) as u8
    }

    /// Any byte, but often one of the edges.
    pub fn byte(&mut self) -> u8 {
        if self.once_in(4) {
            self.pick(&EDGES)
        } else {
            self.any_byte()
        }
    }

    pub fn pick<T: Copy>(&mut self, list: &[T]) -> T {
        list[self.below(list.len() as u32) as usize]
    }
}
