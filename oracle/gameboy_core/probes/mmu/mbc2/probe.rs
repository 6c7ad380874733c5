//! Mbc2's fields; those that it lacks hold their starting values.

use super::super::probe::Banks;
use super::*;

pub fn get(mbc2: &Mbc2) -> Banks {
    Banks {
        rom: mbc2.selected_rom_bank,
        enabled: mbc2.external_ram_enabled,
        ..Banks::START
    }
}

pub fn set(mbc2: &mut Mbc2, banks: &Banks) {
    mbc2.selected_rom_bank = banks.rom;
    mbc2.external_ram_enabled = banks.enabled;
}
