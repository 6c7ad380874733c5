//! The two sides: the same cartridge, in colour, with the same first writes.

use std::cell::RefCell;
use std::rc::Rc;

use gameboy_core::emulator::traits::RTC;
use pouchrattle::MbcType;

/// Mbc1 with 2 banks and 8,192 bytes of RAM.
const ROM: usize = 32768;
const CODE: u8 = 2;

/// RAM enabled; the timer on, with period 16.
const START: [(u16, u8); 4] = [(0x0000, 0x0A), (0xFF07, 0x05), (0xC000, 0x12), (0xC09F, 0x34)];

pub const LONGEST_LOG: usize = pouchrattle::LONGEST_LOG;
pub const RECORD_LEN: usize = pouchrattle::RECORD_LEN;

/// The record of one stored byte.
fn record(address: usize, value: u8) -> [u8; RECORD_LEN] {
    (1 << 31 | (address as u32) << 14 | u32::from(value) << 6).to_be_bytes()
}

pub struct Ours {
    pub memory: pouchrattle::Memory,
    pub timer: pouchrattle::Timer,
    pub controller: pouchrattle::Controller,
    pub recovery: Recovery,
}

pub struct Theirs {
    pub memory: gameboy_core::mmu::Memory,
    pub timer: gameboy_core::timer::Timer,
    pub controller: gameboy_core::joypad::Controller,
    pub recovery: Recovery,
}

/// A save, and a full log of it.
pub struct Recovery {
    pub save: Vec<u8>,
    pub log: Vec<u8>,
}

fn rom() -> Vec<u8> {
    let mut rom: Vec<u8> = (0..ROM).map(|address| (address + address / 256 * 3) as u8).collect();
    rom[0x0147] = 1;
    rom[0x0149] = CODE;
    rom
}

impl Ours {
    pub fn new() -> Ours {
        let cartridge = pouchrattle::Cartridge { rom: rom(), mbc_type: MbcType::Mbc1, ram_size: CODE };
        let mut memory = pouchrattle::Memory::new(cartridge, true, &[0; 8192]).expect("a bus");
        for (index, value) in START {
            memory.write_byte(index, value).expect("a write");
        }
        Ours { memory, timer: pouchrattle::Timer::new(), controller: pouchrattle::Controller::new(), recovery: Recovery::new() }
    }
}

impl Theirs {
    /// The engine's callback keeps a record of each stored byte, as our log does.
    pub fn new() -> Theirs {
        let mut cartridge = gameboy_core::mmu::cartridge::Cartridge::from_rom(rom()).expect("a cartridge");
        cartridge.set_ram(vec![0; 8192]);
        let mut memory = gameboy_core::mmu::Memory::from_cartridge(cartridge, Box::new(NoClock), true);
        let log = Rc::new(RefCell::new(Vec::with_capacity(LONGEST_LOG)));
        memory.set_ram_change_callback(Box::new(move |address, value| {
            let mut log = log.borrow_mut();
            if log.len() + RECORD_LEN > LONGEST_LOG {
                log.clear();
            }
            log.extend_from_slice(&record(address, value));
        }));
        for (index, value) in START {
            memory.write_byte(index, value);
        }
        Theirs { memory, timer: gameboy_core::timer::Timer::new(), controller: gameboy_core::joypad::Controller::new(), recovery: Recovery::new() }
    }
}

impl Recovery {
    fn new() -> Recovery {
        let save = vec![0; 8192];
        let records = (0..LONGEST_LOG / RECORD_LEN).flat_map(|at| record(at % save.len(), (at % 251) as u8));
        Recovery { log: records.collect(), save }
    }
}

/// Both sides show the same at every index, the sound window apart (the host's), and have recovered the same save.
pub fn agree(ours: &Ours, theirs: &Theirs) -> bool {
    let sound = 0xFF10..=0xFF3F;
    let mut indices = (0..=0xFFFF).filter(|index| !sound.contains(index));
    indices.all(|index| ours.memory.read_byte(index) == theirs.memory.read_byte(index)) && ours.recovery.save == theirs.recovery.save
}

/// Mbc3 alone would ask for the time.
struct NoClock;

impl RTC for NoClock {
    fn get_current_time(&self) -> u64 {
        0
    }
}
