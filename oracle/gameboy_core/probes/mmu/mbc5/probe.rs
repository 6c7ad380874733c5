//! Mbc5's fields; `high` is its ninth bit by itself. It has no mode.

use super::super::probe::Banks;
use super::*;

pub fn get(mbc5: &Mbc5) -> Banks {
    Banks {
        rom: mbc5.selected_rom_bank,
        ram: mbc5.selected_eram_bank,
        enabled: mbc5.external_ram_enabled,
        high: mbc5.selected_rom_bank_high,
        ..Banks::START
    }
}

pub fn set(mbc5: &mut Mbc5, banks: &Banks) {
    mbc5.selected_rom_bank = banks.rom;
    mbc5.selected_eram_bank = banks.ram;
    mbc5.external_ram_enabled = banks.enabled;
    mbc5.selected_rom_bank_high = banks.high;
}
