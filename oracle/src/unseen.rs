//! What the Rust's Mbc5 keeps and ours does not, as no read and no store shows it:
//!
//! - with RAM code 0, whether RAM is enabled, and the RAM bank. The Rust keeps what
//!   was written (and takes the bank modulo no banks); document 02 has off and 0;
//! - the ROM bank's ninth bit by itself. With 512 banks it is the bank's own, with
//!   fewer it never counts.
//!
//! These fields of its state are left out of the comparison, and nothing else of it.
//! That they are not seen is compared: reads and stores are the Rust's, whatever it
//! keeps, and the parts are asked with the fields at either end of what they can hold.

use gameboy_core::mmu::probe::Banks;

use crate::machine::{Shape, MBC5};

/// log2 of the most banks, with which every bit counts.
const MOST_LOG: u8 = 9;

/// What is due of ours after a call of the Rust's.
pub fn due(shape: Shape, rust: Banks) -> Banks {
    if shape.kind != MBC5 {
        return rust;
    }
    assert!(rust.high < 2, "a ninth bit");
    if shape.log == MOST_LOG {
        assert_eq!(rust.high, rust.rom >> 8, "the ROM bank's ninth bit");
    }
    let mut ours = Banks { high: 0, ..rust };
    if shape.code == 0 {
        assert!(rust.ram < 16, "a RAM bank of four bits");
        ours.ram = 0;
        ours.enabled = false;
    }
    ours
}

/// Two states of the Rust's that one of ours stands for; where all fields are seen,
/// one and the same.
pub fn states(shape: Shape, ours: Banks) -> [Banks; 2] {
    let mut first = ours;
    if shape.kind == MBC5 {
        first.high = first.rom >> 8;
    }
    let mut second = first.clone();
    if shape.kind == MBC5 && shape.log < MOST_LOG {
        second.high = 1;
    }
    if shape.kind == MBC5 && shape.code == 0 {
        second.ram = 0x0F;
        second.enabled = true;
    }
    [first, second]
}
