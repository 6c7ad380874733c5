//! What the comparison with the Rust leaves out, though our lists go there
//! (docs/DIFFERENCES.md):
//!
//! - OAM DMA from pages 00..7F, of which the Rust copies nothing. Its bytes are held
//!   to the Rust's own reads of the page instead, through its mapper and the bank
//!   that is selected; all else of such a call is compared.
//! - A write that finds no room in the log. The Rust has no log, and would store. The
//!   call is not made: 2 is due, and nothing changed.

use gameboy_core::mmu::probe;
use gameboy_core::mmu::Memory;

use crate::hex;
use crate::record;

/// What a save byte is written by.
pub const SAVE: std::ops::RangeInclusive<u16> = 0xA000..=0xBFFF;
const SPRITES: u16 = 0xFE00;
const LENGTH: u16 = 0xA0;

/// The page of ROM that this call copies to OAM, if it does.
pub fn page(letter: char, input: &[u8]) -> Option<u8> {
    match (letter, input) {
        ('D', [page])
        | ('W', [0xFF, 0x46, page])
        | ('V', [0xFF, 0x46, _, page])
        | ('V', [0xFF, 0x45, page, _])
            if *page < 0x80 =>
        {
            Some(*page)
        }
        _ => None,
    }
}

/// Makes such a call on the Rust, which must leave OAM as it is, and puts there
/// what the page read before.
pub fn copy<T>(bus: &mut Memory, page: u8, call: impl FnOnce(&mut Memory) -> T) -> T {
    let start = u16::from(page) << 8;
    let bytes: Vec<u8> = (start..start + LENGTH).map(|i| bus.read_byte(i)).collect();
    let oam = probe::hidden(bus).oam.to_vec();
    let answer = call(bus);
    assert_eq!(
        probe::hidden(bus).oam,
        oam,
        "the Rust copies page {page:02X}"
    );
    for (index, byte) in (SPRITES..).zip(bytes) {
        bus.write_byte(index, byte);
    }
    answer
}

/// How many records a call needs room for. A byte in A000..BFFF needs one, whether it
/// is stored or not; a word two, with either index there.
pub fn records(letter: char, input: &[u8]) -> usize {
    match letter {
        'W' => usize::from(SAVE.contains(&hex::word(input))),
        'V' => {
            let index = hex::word(input);
            let either = SAVE.contains(&index) || SAVE.contains(&index.wrapping_add(1));
            2 * usize::from(either)
        }
        _ => 0,
    }
}

/// Is there no room for this call, with so many bytes of the log free?
pub fn no_room(letter: char, input: &[u8], free: usize) -> bool {
    free < records(letter, input) * record::LENGTH
}
