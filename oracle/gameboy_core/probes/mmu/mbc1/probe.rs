//! Mbc1's fields.

use super::super::probe::Banks;
use super::*;

pub fn get(mbc1: &Mbc1) -> Banks {
    Banks {
        rom: mbc1.selected_rom_bank,
        ram: mbc1.selected_eram_bank,
        mode: mbc1.in_ram_banking_mode,
        enabled: mbc1.external_ram_enabled,
        high: mbc1.higher_rom_bank_bits,
    }
}

pub fn set(mbc1: &mut Mbc1, banks: &Banks) {
    mbc1.selected_rom_bank = banks.rom;
    mbc1.selected_eram_bank = banks.ram;
    mbc1.in_ram_banking_mode = banks.mode;
    mbc1.external_ram_enabled = banks.enabled;
    mbc1.higher_rom_bank_bits = banks.high;
}
