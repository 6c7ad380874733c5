//! What the number of a call says.

use crate::mmu::cartridge::{MbcType, BANK_LEN, GAMEBOY_CORE_LEN, GAMEBOY_CORE_LEN_MBC5};
use crate::{JOURNAL_MARK, OLD_RECORD_LEN, RECORD_LEN};
use std::error::Error;
use std::fmt;

/// Why a call was refused. A refused call changes nothing.
#[derive(Clone, Copy, Debug, PartialEq, Eq)]
pub enum Refusal {
    /// A write in A000..BFFF, and the log has no room: for one record for a byte, for two for a word. Keep the log (`Journal::keep`, or
    /// `Memory::take_log`) and write again.
    NoRoom,
    /// The cartridge's description or an image is out of range.
    OutOfRange(OutOfRange),
    /// A memory has another length than it must have.
    WrongLength(WrongLength),
    /// More than 65,536 cycles in one update.
    TooManyCycles,
    /// The log or the journal has a whole record that is damaged.
    Damaged(Damaged),
    /// The log has a record that the form of versions before 3.0 has no room for.
    BeyondOld(BeyondOld),
    /// What `recover_journal` was given does not begin with `JOURNAL_MARK`: a journal of a version before 3.0, for `recover_old_journal`, or no journal.
    Unmarked,
    /// What `recover_old_journal` was given begins with `JOURNAL_MARK`: a journal for `recover_journal`.
    Marked,
    /// A raw load or store below FF00; a bank or an index outside video memory.
    Outside,
}

impl Refusal {
    /// The number by which the library refuses, as in the C header: 2 to 7.
    pub const fn number(&self) -> u8 {
        match self {
            Refusal::NoRoom => 2,
            Refusal::OutOfRange(_) => 3,
            Refusal::WrongLength(_) => 4,
            Refusal::TooManyCycles => 5,
            Refusal::Damaged(_) | Refusal::BeyondOld(_) | Refusal::Unmarked | Refusal::Marked => 6,
            Refusal::Outside => 7,
        }
    }

    /// The same of a log behind so many other records.
    pub(crate) fn behind(self, records: usize) -> Refusal {
        match self {
            Refusal::Damaged(Damaged { record, bytes }) => Refusal::Damaged(Damaged { record: records + record, bytes }),
            other => other,
        }
    }
}

impl fmt::Display for Refusal {
    fn fmt(&self, f: &mut fmt::Formatter) -> fmt::Result {
        match self {
            Refusal::NoRoom => f.write_str("the log has no room for this write: keep it, and write again"),
            Refusal::OutOfRange(what) => what.fmt(f),
            Refusal::WrongLength(what) => what.fmt(f),
            Refusal::TooManyCycles => f.write_str("more than 65,536 cycles in one update"),
            Refusal::Damaged(what) => what.fmt(f),
            Refusal::BeyondOld(what) => what.fmt(f),
            Refusal::Unmarked => {
                let mark = Hex(&JOURNAL_MARK);
                write!(f, "the journal does not begin with the mark of version 3,{mark}; if an older version wrote it: recover_old_journal")
            }
            Refusal::Marked => write!(f, "the journal begins with the mark of version 3,{}: recover_journal takes it", Hex(&JOURNAL_MARK)),
            Refusal::Outside => f.write_str("an index below FF00, or a bank or an index outside video memory"),
        }
    }
}

impl Error for Refusal {}

/// What is out of range.
#[derive(Clone, Copy, Debug, PartialEq, Eq)]
pub enum OutOfRange {
    /// The ROM's banks are not as many as the mapper takes.
    Rom {
        /// The cartridge's mapper.
        mbc_type: MbcType,
        /// The ROM's bytes.
        found: usize,
    },
    /// The mapper does not take this RAM code.
    RamSize {
        /// The cartridge's mapper.
        mbc_type: MbcType,
        /// The cartridge's RAM code.
        found: u8,
    },
    /// The image holds no state of a bus.
    Image,
}

impl fmt::Display for OutOfRange {
    fn fmt(&self, f: &mut fmt::Formatter) -> fmt::Result {
        match *self {
            OutOfRange::Rom { mbc_type, found } => {
                let banks = match mbc_type {
                    MbcType::RomOnly => "2",
                    MbcType::Mbc1 => "2, 4, 8, 16, 32, 64 or 128",
                    MbcType::Mbc2 => "2, 4, 8 or 16",
                    MbcType::Mbc5 => "2, 4, 8, 16, 32, 64, 128, 256 or 512",
                };
                write!(f, "the ROM has {} bytes, and {mbc_type:?} takes {banks} banks of {}", Grouped(found), Grouped(BANK_LEN))
            }
            OutOfRange::RamSize { mbc_type, found } => {
                let codes = match mbc_type {
                    MbcType::RomOnly | MbcType::Mbc1 => "0, 2 or 3",
                    MbcType::Mbc2 => "0",
                    MbcType::Mbc5 => "0, 2, 3 or 4",
                };
                write!(f, "the RAM code is {found}, and {mbc_type:?} takes {codes}")
            }
            OutOfRange::Image => f.write_str("the image holds no state of a bus"),
        }
    }
}

/// Which memory has a wrong length, how long it is, and how long it must be.
#[derive(Clone, Copy, Debug, PartialEq, Eq)]
pub struct WrongLength {
    /// The memory.
    pub memory: Which,
    /// Its bytes.
    pub found: usize,
    /// How many it must have.
    pub expected: Expected,
}

impl WrongLength {
    /// What is wrong, without a hint.
    pub(crate) fn lengths(&self, f: &mut fmt::Formatter) -> fmt::Result {
        write!(f, "the {} has {} bytes, and must have {}", self.memory, Grouped(self.found), self.expected)
    }
}

impl fmt::Display for WrongLength {
    fn fmt(&self, f: &mut fmt::Formatter) -> fmt::Result {
        self.lengths(f)?;
        // The lengths of the cartridges for which gameboy_core keeps more than there is.
        let longer: &[usize] = match self.found {
            GAMEBOY_CORE_LEN => &[0, 8192],
            GAMEBOY_CORE_LEN_MBC5 => &[0, 8192, 32768],
            _ => &[],
        };
        let cut = longer.iter().any(|bytes| self.expected == Expected::Exactly(*bytes));
        if self.memory == Which::Save && cut {
            f.write_str(": if gameboy_core kept it, Cartridge::save_from_gameboy_core cuts it")?;
        }
        Ok(())
    }
}

/// A memory that the library is lent.
#[derive(Clone, Copy, Debug, PartialEq, Eq)]
pub enum Which {
    /// The cartridge's ROM.
    Rom,
    /// Video memory.
    Vram,
    /// Work memory.
    Wram,
    /// The cartridge's RAM.
    Save,
    /// The save's log.
    Log,
    /// What `Memory::read_block` fills.
    Block,
}

impl fmt::Display for Which {
    fn fmt(&self, f: &mut fmt::Formatter) -> fmt::Result {
        f.write_str(match self {
            Which::Rom => "ROM",
            Which::Vram => "video memory",
            Which::Wram => "work memory",
            Which::Save => "save",
            Which::Log => "log",
            Which::Block => "block",
        })
    }
}

/// How many bytes a memory must have.
#[derive(Clone, Copy, Debug, PartialEq, Eq)]
pub enum Expected {
    /// So many.
    Exactly(usize),
    /// So many or fewer.
    AtMost(usize),
    /// As many as a save of some cartridge: 0, 512, 8,192, 32,768 or 131,072.
    AnySave,
}

impl fmt::Display for Expected {
    fn fmt(&self, f: &mut fmt::Formatter) -> fmt::Result {
        match *self {
            Expected::Exactly(bytes) => Grouped(bytes).fmt(f),
            Expected::AtMost(bytes) => write!(f, "at most {}", Grouped(bytes)),
            Expected::AnySave => f.write_str("0, 512, 8,192, 32,768 or 131,072"),
        }
    }
}

/// Which record of a log or a journal is damaged: the first one.
#[derive(Clone, Copy, Debug, PartialEq, Eq)]
pub struct Damaged {
    /// Its number, from 0.
    pub record: usize,
    /// Its bytes.
    pub bytes: RecordBytes,
}

impl fmt::Display for Damaged {
    fn fmt(&self, f: &mut fmt::Formatter) -> fmt::Result {
        write!(f, "record {} is damaged:{}", Grouped(self.record), Hex(self.bytes.as_ref()))
    }
}

/// The bytes of a record, in either form.
#[derive(Clone, Copy, Debug, PartialEq, Eq)]
pub enum RecordBytes {
    /// Of a log or a journal of a version before 3.0.
    Old([u8; OLD_RECORD_LEN]),
    /// Of any other.
    New([u8; RECORD_LEN]),
}

impl AsRef<[u8]> for RecordBytes {
    fn as_ref(&self) -> &[u8] {
        match self {
            RecordBytes::Old(bytes) => bytes,
            RecordBytes::New(bytes) => bytes,
        }
    }
}

/// Which record the form of versions before 3.0 has no room for, as its address is 32,768 or more: the first one.
#[derive(Clone, Copy, Debug, PartialEq, Eq)]
pub struct BeyondOld {
    /// Its number, from 0.
    pub record: usize,
    /// Its bytes.
    pub bytes: [u8; RECORD_LEN],
}

impl fmt::Display for BeyondOld {
    fn fmt(&self, f: &mut fmt::Formatter) -> fmt::Result {
        write!(f, "record {} has an address of 32,768 or more, which an old record does not hold:{}", Grouped(self.record), Hex(&self.bytes))
    }
}

/// Bytes as people read them, each behind a blank.
struct Hex<'a>(&'a [u8]);

impl fmt::Display for Hex<'_> {
    fn fmt(&self, f: &mut fmt::Formatter) -> fmt::Result {
        self.0.iter().try_for_each(|byte| write!(f, " {byte:02X}"))
    }
}

/// A number as people read it: 32,768.
pub(crate) struct Grouped(pub usize);

impl fmt::Display for Grouped {
    fn fmt(&self, f: &mut fmt::Formatter) -> fmt::Result {
        if self.0 < 1000 {
            return write!(f, "{}", self.0);
        }
        write!(f, "{},{:03}", Grouped(self.0 / 1000), self.0 % 1000)
    }
}

/// A write that was done.
#[derive(Clone, Copy, Debug, PartialEq, Eq)]
pub struct Written {
    /// An index of this write is in FF10..FF3F: the host owes the write to its sound part, and the new window by `Memory::sound_mut`.
    pub owes_sound: bool,
}

/// The number of a write on a bus, which only a full log refuses.
#[inline]
pub(crate) fn written(number: u8) -> Result<Written, Refusal> {
    match number {
        0 => Ok(Written { owes_sound: false }),
        1 => Ok(Written { owes_sound: true }),
        2 => Err(Refusal::NoRoom),
        _ => never(number),
    }
}

/// The number of a call that can be refused in one way alone.
#[inline]
pub(crate) fn unless(refusal: Refusal, number: u8) -> Result<(), Refusal> {
    if number == 0 {
        Ok(())
    } else if number == refusal.number() {
        Err(refusal)
    } else {
        never(number)
    }
}

/// The number of a call that nothing can refuse: a `Memory` holds an image in its ranges and memories of its lengths.
#[inline]
pub(crate) fn done(number: u8) {
    if number != 0 {
        never(number)
    }
}

#[cold]
pub(crate) fn never(number: u8) -> ! {
    panic!("a call on a bus in its ranges was refused by {number}")
}
