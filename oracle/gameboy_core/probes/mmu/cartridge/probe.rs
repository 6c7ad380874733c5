//! The ROM's bytes, set after the header has been read.

use super::*;

pub fn set_rom(cartridge: &mut Cartridge, rom: Vec<u8>) {
    assert_eq!(cartridge.rom.len(), rom.len());
    cartridge.rom = rom;
}
