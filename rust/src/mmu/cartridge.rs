//! What is said of a cartridge. Reading its header is the host's.

use super::memory::Bytes;
use crate::refusal::{Expected, Grouped, Which, WrongLength};
use std::error::Error;
use std::fmt;

/// The bytes of a ROM bank.
pub(crate) const BANK_LEN: usize = 16384;

/// The bytes that gameboy_core keeps for every RomOnly and Mbc1 cartridge, and for every Mbc5 one.
pub(crate) const GAMEBOY_CORE_LEN: usize = 32768;
pub(crate) const GAMEBOY_CORE_LEN_MBC5: usize = 131_072;

/// The mappers of this bus, by their numbers.
#[derive(Clone, Copy, Debug, PartialEq, Eq)]
#[repr(u8)]
pub enum MbcType {
    /// No mapper.
    RomOnly = 0,
    /// The first mapper: up to 128 ROM banks, and up to 4 banks of RAM.
    Mbc1 = 1,
    /// The second: up to 16 ROM banks, and 512 half bytes of RAM within the mapper.
    Mbc2 = 2,
    /// The fifth: up to 512 ROM banks, of which the first too can stand at 4000, and up to 16 banks of RAM.
    Mbc5 = 3,
}

/// A cartridge's ROM, and its description. `Memory::new` checks it.
#[derive(Clone, PartialEq, Eq)]
pub struct Cartridge {
    /// Whole banks of 16,384 bytes, a power of two of them: 2 with RomOnly, 2 to 128 with Mbc1, 2 to 16 with Mbc2, 2 to 512 with
    /// Mbc5.
    pub rom: Vec<u8>,
    /// The mapper.
    pub mbc_type: MbcType,
    /// The header's RAM code: 0, 2 or 3, with Mbc5 4 too; 0 with Mbc2.
    pub ram_size: u8,
}

impl Cartridge {
    /// How many bytes a save of this cartridge has.
    pub fn save_len(&self) -> usize {
        match (self.mbc_type, self.ram_size) {
            (MbcType::Mbc2, _) => 512,
            (_, 2) => 8192,
            (_, 3) => 32768,
            (MbcType::Mbc5, 4) => 131_072,
            _ => 0,
        }
    }

    /// The save within what gameboy_core keeps for this cartridge, for `Memory::new`. That crate keeps 32,768 bytes for every RomOnly and
    /// Mbc1 cartridge, 131,072 for every Mbc5 one, and makes them FF; with RAM code 2 a game reaches the first 8,192, with code 3 the first
    /// 32,768, with code 4 of Mbc5 all, with code 0 none. What is behind them is cut. A save that has the cartridge's own length is given as it is.
    ///
    /// Refused, and nothing cut, by `NotCut::WrongLength` for any other length; and by `NotCut::Used` where a byte behind them is not as it was
    /// made: that is no save of this cartridge, and cutting it would lose a player's bytes. Hosts make them FF as gameboy_core does, or 00.
    ///
    /// ```
    /// use pouchrattle::{Cartridge, MbcType, Memory};
    ///
    /// let cartridge = Cartridge { rom: vec![0; 32768], mbc_type: MbcType::Mbc1, ram_size: 2 };
    /// let file = vec![0xFF; 32768];
    /// let save = cartridge.save_from_gameboy_core(&file)?;
    /// assert_eq!(save.len(), 8192);
    /// let memory = Memory::new(cartridge, false, save)?;
    /// # Ok::<(), Box<dyn std::error::Error>>(())
    /// ```
    pub fn save_from_gameboy_core<'a>(&self, ram: &'a [u8]) -> Result<&'a [u8], NotCut> {
        let len = self.save_len();
        if ram.len() == len {
            return Ok(ram);
        }
        let kept = match self.mbc_type {
            MbcType::RomOnly | MbcType::Mbc1 => GAMEBOY_CORE_LEN,
            MbcType::Mbc2 => len,
            MbcType::Mbc5 => GAMEBOY_CORE_LEN_MBC5,
        };
        if ram.len() != kept {
            return Err(NotCut::WrongLength(WrongLength { memory: Which::Save, found: ram.len(), expected: Expected::Exactly(len) }));
        }
        let (save, rest) = ram.split_at(len);
        let made = if rest[0] == 0 { 0 } else { 0xFF };
        match rest.iter().position(|byte| *byte != made) {
            Some(at) => Err(NotCut::Used { at: len + at, byte: rest[at] }),
            None => Ok(save),
        }
    }
}

/// Short: the ROM by its length.
impl fmt::Debug for Cartridge {
    fn fmt(&self, f: &mut fmt::Formatter) -> fmt::Result {
        f.debug_struct("Cartridge").field("rom", &Bytes(&self.rom)).field("mbc_type", &self.mbc_type).field("ram_size", &self.ram_size).finish()
    }
}

/// Why `Cartridge::save_from_gameboy_core` gives no save.
#[derive(Clone, Copy, Debug, PartialEq, Eq)]
pub enum NotCut {
    /// It is neither as long as a save of this cartridge nor as long as what gameboy_core keeps for it.
    WrongLength(WrongLength),
    /// What would be cut holds something.
    Used {
        /// The first byte that shows it: its place.
        at: usize,
        /// Its value.
        byte: u8,
    },
}

impl fmt::Display for NotCut {
    fn fmt(&self, f: &mut fmt::Formatter) -> fmt::Result {
        match self {
            NotCut::WrongLength(what) => what.lengths(f),
            NotCut::Used { at, byte } => {
                write!(f, "this is a save of another cartridge: byte {} is {byte:02X}, which this one does not reach", Grouped(*at))
            }
        }
    }
}

impl Error for NotCut {}
