//! The Rust's parts that the answers come from, each built once and set anew
//! for every input.

use std::cell::RefCell;
use std::collections::BTreeMap;
use std::rc::Rc;

use gameboy_core::emulator::traits::RTC;
use gameboy_core::joypad::Controller;
use gameboy_core::mmu::cartridge::{self, Cartridge};
use gameboy_core::mmu::probe::Mapper;
use gameboy_core::mmu::Memory;
use gameboy_core::timer::Timer;

pub struct Machine {
    pub bus: Memory,
    pub timer: Timer,
    pub controller: Controller,
    mappers: BTreeMap<Shape, Held>,
}

pub const ROM_ONLY: u8 = 0;
pub const MBC1: u8 = 1;
pub const MBC2: u8 = 2;
pub const MBC5: u8 = 3;

/// A cartridge's kind, log2 of its ROM banks and its RAM code.
#[derive(Clone, Copy, PartialEq, Eq, PartialOrd, Ord)]
pub struct Shape {
    pub kind: u8,
    pub log: u8,
    pub code: u8,
}

/// A mapper, and the save bytes that it has told of.
pub struct Held {
    pub mapper: Mapper,
    pub stored: Rc<RefCell<Vec<(usize, u8)>>>,
}

impl Machine {
    pub fn new() -> Machine {
        let shape = Shape {
            kind: 0,
            log: 1,
            code: 0,
        };
        let machine = Machine {
            bus: Memory::from_cartridge(shape.cartridge(), Box::new(NoClock), false),
            timer: Timer::new(),
            controller: Controller::new(),
            mappers: BTreeMap::new(),
        };
        // Here index + 1 wraps; with overflow checks on the Rust would panic.
        machine.bus.read_word(0xFFFF);
        machine
    }

    /// A mapper over the contents that `rom_byte` and `save_byte` give.
    pub fn mapper(&mut self, shape: Shape) -> &mut Held {
        self.mappers.entry(shape).or_insert_with(|| shape.held())
    }
}

impl Shape {
    fn held(self) -> Held {
        let mut mapper = Mapper::new(self.cartridge());
        let stored = Rc::new(RefCell::new(Vec::new()));
        let told = Rc::clone(&stored);
        mapper.set_ram_change_callback(Box::new(move |address, value| {
            told.borrow_mut().push((address, value));
        }));
        Held { mapper, stored }
    }

    /// Numbers of banks come from the Rust's reading of a header; the contents
    /// are put in afterwards, over the header too.
    pub fn cartridge(self) -> Cartridge {
        let mut rom = vec![0; 0x4000 << self.log];
        rom[0x0147] = [0x00, 0x01, 0x05, 0x19][usize::from(self.kind)];
        rom[0x0149] = self.code;
        let contents = (0..rom.len()).map(rom_byte).collect();
        let mut cartridge = Cartridge::from_rom(rom).expect("a cartridge");
        cartridge::probe::set_rom(&mut cartridge, contents);
        let save = (0..cartridge.get_ram().len()).map(save_byte).collect();
        cartridge.set_ram(save);
        cartridge
    }
}

/// The ROM's byte at an address: tells bank, page and place apart, and bank 256 from
/// bank 0.
fn rom_byte(address: usize) -> u8 {
    let upper = address / 4_194_304;
    ((address + address / 16384 * 7 + address / 256 * 3 + upper * 13) % 256) as u8
}

/// The save's byte at an address.
pub fn save_byte(address: usize) -> u8 {
    ((address * 5 + address / 8192 * 11 + 17) % 256) as u8
}

/// Mbc3 alone would ask for the time.
pub struct NoClock;

impl RTC for NoClock {
    fn get_current_time(&self) -> u64 {
        0
    }
}
