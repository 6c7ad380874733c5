//! The bus's hidden fields, and the four mappers by themselves.

use super::*;

pub fn joypad_state(memory: &Memory) -> u8 {
    memory.joypad_state
}

/// What a bus keeps to itself, its page apart (`load` gives that).
pub struct Hidden<'a> {
    pub vram: &'a [u8],
    pub wram: &'a [u8],
    pub oam: &'a [u8],
    pub colour: bool,
    pub vram_bank: i32,
    pub wram_bank: i32,
    pub hdma_source: u16,
    pub hdma_destination: u16,
    pub banks: Banks,
}

pub fn hidden(memory: &Memory) -> Hidden<'_> {
    Hidden {
        vram: &memory.vram,
        wram: &memory.wram,
        oam: &memory.oam,
        colour: memory.is_cgb,
        vram_bank: memory.vram_bank,
        wram_bank: memory.wram_bank,
        hdma_source: memory.hdma_source,
        hdma_destination: memory.hdma_destination,
        banks: banks(memory),
    }
}

/// The bus has hidden its mapper's type; the cartridge in it names the type
/// that `from_cartridge` chose.
fn banks(memory: &Memory) -> Banks {
    let mapper: *const dyn Mbc = &*memory.mbc;
    match memory.get_cartridge().get_mbc_type() {
        MbcType::RomOnly => Banks::START,
        MbcType::Mbc1 => mbc1::probe::get(unsafe { &*mapper.cast::<Mbc1>() }),
        MbcType::Mbc2 => mbc2::probe::get(unsafe { &*mapper.cast::<Mbc2>() }),
        MbcType::Mbc5 => mbc5::probe::get(unsafe { &*mapper.cast::<Mbc5>() }),
        MbcType::Mbc3 => panic!("a mapper that is not compared"),
    }
}

/// What a mapper has selected.
#[derive(Clone)]
pub struct Banks {
    pub rom: usize,
    pub ram: usize,
    pub mode: bool,
    pub enabled: bool,
    pub high: usize,
}

impl Banks {
    pub const START: Banks = Banks {
        rom: 1,
        ram: 0,
        mode: false,
        enabled: false,
        high: 0,
    };
}

/// A mapper that is no part of a bus. Its kind is the header's.
pub enum Mapper {
    RomOnly(RomOnly),
    Mbc1(Mbc1),
    Mbc2(Mbc2),
    Mbc5(Mbc5),
}

impl Mapper {
    pub fn new(cartridge: Cartridge) -> Mapper {
        match cartridge.get_mbc_type() {
            MbcType::RomOnly => Mapper::RomOnly(RomOnly::new(cartridge)),
            MbcType::Mbc1 => Mapper::Mbc1(Mbc1::new(cartridge)),
            MbcType::Mbc2 => Mapper::Mbc2(Mbc2::new(cartridge)),
            MbcType::Mbc5 => Mapper::Mbc5(Mbc5::new(cartridge)),
            MbcType::Mbc3 => panic!("a mapper that is not compared"),
        }
    }

    pub fn get(&self) -> Banks {
        match self {
            Mapper::RomOnly(_) => Banks::START,
            Mapper::Mbc1(mbc1) => mbc1::probe::get(mbc1),
            Mapper::Mbc2(mbc2) => mbc2::probe::get(mbc2),
            Mapper::Mbc5(mbc5) => mbc5::probe::get(mbc5),
        }
    }

    pub fn set(&mut self, banks: &Banks) {
        match self {
            Mapper::RomOnly(_) => (),
            Mapper::Mbc1(mbc1) => mbc1::probe::set(mbc1, banks),
            Mapper::Mbc2(mbc2) => mbc2::probe::set(mbc2, banks),
            Mapper::Mbc5(mbc5) => mbc5::probe::set(mbc5, banks),
        }
    }

    pub fn read_byte(&self, index: u16) -> u8 {
        self.mbc().read_byte(index)
    }

    pub fn write_byte(&mut self, index: u16, value: u8) {
        self.mbc_mut().write_byte(index, value)
    }

    pub fn ram_mut(&mut self) -> &mut [u8] {
        self.mbc_mut().get_cartridge_mut().get_ram_mut()
    }

    pub fn set_ram_change_callback(&mut self, f: Box<dyn FnMut(usize, u8)>) {
        self.mbc_mut().set_ram_change_callback(f)
    }

    fn mbc(&self) -> &dyn Mbc {
        match self {
            Mapper::RomOnly(rom_only) => rom_only,
            Mapper::Mbc1(mbc1) => mbc1,
            Mapper::Mbc2(mbc2) => mbc2,
            Mapper::Mbc5(mbc5) => mbc5,
        }
    }

    fn mbc_mut(&mut self) -> &mut dyn Mbc {
        match self {
            Mapper::RomOnly(rom_only) => rom_only,
            Mapper::Mbc1(mbc1) => mbc1,
            Mapper::Mbc2(mbc2) => mbc2,
            Mapper::Mbc5(mbc5) => mbc5,
        }
    }
}
