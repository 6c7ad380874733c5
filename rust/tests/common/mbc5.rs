//! MBC5 as Pan Docs have it, beside the bus: what was last written to each register, whole. Only where a bank is looked up is it taken modulo those present.

// Each test takes its part.
#![allow(dead_code)]

use crate::common::{cartridge, record};
use pouchrattle::{MbcType, Memory, Refusal, Written, RECORD_LEN};

pub use crate::common::Random;

/// ROM banks.
pub const ROM_BANKS: [usize; 4] = [2, 8, 256, 512];

/// RAM codes, and the RAM banks of each.
pub const CODES: [(u8, usize); 4] = [(0, 0), (2, 1), (3, 4), (4, 16)];

/// Every cartridge of the two.
pub fn cartridges() -> impl Iterator<Item = (usize, u8)> {
    ROM_BANKS.into_iter().flat_map(|banks| CODES.into_iter().map(move |(code, _)| (banks, code)))
}

#[derive(Clone)]
pub struct Model {
    pub rom_banks: usize,
    pub ram_banks: usize,
    enable: u8,
    low: u8,
    ninth: u8,
    ram: u8,
    pub save: Vec<u8>,
    /// The stored bytes in order: address, value.
    pub stored: Vec<(usize, u8)>,
}

impl Model {
    pub fn new(rom_banks: usize, code: u8) -> Model {
        let (_, ram_banks) = CODES.into_iter().find(|known| known.0 == code).unwrap();
        // No byte is FF, which RAM that is off reads; no two banks have the same at one place.
        let save = (0..ram_banks * 8192).map(|at| (at / 8192 * 12 + at % 8192 % 61) as u8).collect();
        Model { rom_banks, ram_banks, enable: 0, low: 1, ninth: 0, ram: 0, save, stored: Vec::new() }
    }

    pub fn write(&mut self, index: u16, value: u8) {
        match index {
            0x0000..=0x1FFF => self.enable = value,
            0x2000..=0x2FFF => self.low = value,
            0x3000..=0x3FFF => self.ninth = value,
            0x4000..=0x5FFF => self.ram = value,
            0xA000..=0xBFFF => {
                if let Some(at) = self.place(index) {
                    self.save[at] = value;
                    self.stored.push((at, value));
                }
            }
            _ => {}
        }
    }

    /// The ROM bank at 4000..7FFF.
    pub fn bank(&self) -> usize {
        (usize::from(self.low) + 256 * usize::from(self.ninth & 1)) % self.rom_banks
    }

    pub fn is_on(&self) -> bool {
        self.ram_banks > 0 && self.enable & 0x0F == 0x0A
    }

    /// The RAM bank at A000..BFFF, 0 with none.
    pub fn ram_bank(&self) -> usize {
        usize::from(self.ram & 0x0F).checked_rem(self.ram_banks).unwrap_or(0)
    }

    /// The byte of the save that stands at an index of A000..BFFF.
    pub fn place(&self, index: u16) -> Option<usize> {
        self.is_on().then(|| self.ram_bank() * 8192 + usize::from(index - 0xA000))
    }

    /// The log's bytes after all that is stored.
    pub fn log(&self) -> Vec<u8> {
        self.stored.iter().flat_map(|&(at, value)| record(at, value)).collect()
    }
}

/// Where in each ROM bank its number stands, in two bytes.
const MARKS: [u16; 5] = [0x0000, 0x00FF, 0x1FFE, 0x2FFF, 0x3FFE];

/// The bus, and what it must be like.
pub struct Both {
    pub memory: Memory,
    pub model: Model,
}

impl Both {
    pub fn new(rom_banks: usize, code: u8, is_cgb: bool) -> Both {
        Both::with_log(rom_banks, code, is_cgb, pouchrattle::LONGEST_LOG)
    }

    pub fn with_log(rom_banks: usize, code: u8, is_cgb: bool, log: usize) -> Both {
        let model = Model::new(rom_banks, code);
        let mut cartridge = cartridge(MbcType::Mbc5, rom_banks, code);
        for (number, bank) in cartridge.rom.chunks_exact_mut(16384).enumerate() {
            for at in MARKS.map(usize::from) {
                bank[at..at + 2].copy_from_slice(&(number as u16).to_le_bytes());
            }
        }
        Both { memory: Memory::with_log(cartridge, is_cgb, &model.save, log).unwrap(), model }
    }

    /// A byte write that is done.
    pub fn write(&mut self, index: u16, value: u8) {
        assert_eq!(self.memory.write_byte(index, value), Ok(Written { owes_sound: false }));
        self.model.write(index, value);
    }

    pub fn writes(&mut self, list: &[(u16, u8)]) {
        list.iter().for_each(|&(index, value)| self.write(index, value));
    }

    /// A byte or a word write, refused where it is at A000..BFFF and the log has no room: whether it is done.
    pub fn try_write(&mut self, index: u16, value: u16, is_word: bool) -> bool {
        let indices = if is_word { vec![index, index.wrapping_add(1)] } else { vec![index] };
        let records = indices.len() * RECORD_LEN;
        let full = indices.iter().any(|index| (0xA000..=0xBFFF).contains(index)) && self.memory.log_len() < self.memory.log().len() + records;
        let answer = if is_word { self.memory.write_word(index, value) } else { self.memory.write_byte(index, value as u8) };
        assert_eq!(answer, if full { Err(Refusal::NoRoom) } else { Ok(Written { owes_sound: false }) });
        if !full {
            indices.into_iter().zip(value.to_le_bytes()).for_each(|(index, byte)| self.model.write(index, byte));
        }
        !full
    }

    /// What a game reads: the banks' numbers, and some places of RAM.
    pub fn alike(&self) {
        for mark in MARKS {
            assert_eq!(self.memory.read_word(mark), 0);
            assert_eq!(usize::from(self.memory.read_word(0x4000 + mark)), self.model.bank(), "{mark:04X} of {} banks", self.model.rom_banks);
        }
        for index in [0xA000, 0xB234, 0xBFFF] {
            let expected = self.model.place(index).map_or(0xFF, |at| self.model.save[at]);
            assert_eq!(self.memory.read_byte(index), expected, "{index:04X} with {} RAM banks", self.model.ram_banks);
        }
    }
}
