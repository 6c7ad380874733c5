use super::cartridge::{Cartridge, MbcType, BANK_LEN};
use super::image::{Image, IMAGE_LEN};
use crate::entries::*;
use crate::refusal::{done, never, Expected, OutOfRange, Refusal, Which, WrongLength};
use crate::version::version;
use std::fmt;

/// The longest log, in bytes: room for 16,383 records.
pub const LONGEST_LOG: usize = 65535;

/// The longest block of bytes that is read at once: all there is to read.
pub const LONGEST_BLOCK: usize = 65536;

/// The bytes of one record in the log: bit 1, address 17 bits, value 8 bits, six 0 bits.
pub const RECORD_LEN: usize = 4;

/// The lengths of video and work memory.
const MONOCHROME: (usize, usize) = (8192, 8192);
const COLOUR: (usize, usize) = (16384, 32768);

/// The lengths that a save can have.
const SAVE_LENS: [usize; 5] = [0, 512, 8192, 32768, 131_072];

/// The bus with all that it stands on: its state as an image, and the memories that the library is lent for each call. Each has the length
/// that the cartridge's description asks for, from `new` on, so that no call is refused by its lengths or its state.
///
/// Nothing of a bus can be held while a call runs:
///
/// ```
/// # let rom = vec![0; 32768];
/// # let cartridge = pouchrattle::Cartridge { rom, mbc_type: pouchrattle::MbcType::RomOnly, ram_size: 0 };
/// # let mut memory = pouchrattle::Memory::new(cartridge, false, &[]).unwrap();
/// let sound = memory.sound_mut();
/// sound[0] = 0x80;
/// memory.write_byte(0xC000, 1).unwrap();
/// ```
/// ```compile_fail
/// # let rom = vec![0; 32768];
/// # let cartridge = pouchrattle::Cartridge { rom, mbc_type: pouchrattle::MbcType::RomOnly, ram_size: 0 };
/// # let mut memory = pouchrattle::Memory::new(cartridge, false, &[]).unwrap();
/// let sound = memory.sound_mut();
/// memory.write_byte(0xC000, 1).unwrap();
/// sound[0] = 0x80;
/// ```
#[derive(Clone, PartialEq, Eq)]
pub struct Memory {
    pub(super) image: Image,
    pub(super) rom: Vec<u8>,
    pub(super) vram: Vec<u8>,
    pub(super) wram: Vec<u8>,
    pub(super) save: Vec<u8>,
    pub(super) log: Vec<u8>,
    pub(super) sound: [u8; 48],
    /// The log's bytes that a journal has.
    kept: usize,
}

/// A memory, shown by its length.
pub(super) struct Bytes<'a>(pub &'a [u8]);

impl fmt::Debug for Bytes<'_> {
    fn fmt(&self, f: &mut fmt::Formatter) -> fmt::Result {
        write!(f, "{} bytes", self.0.len())
    }
}

/// Short: memories by their lengths.
impl fmt::Debug for Memory {
    fn fmt(&self, f: &mut fmt::Formatter) -> fmt::Result {
        f.debug_struct("Memory")
            .field("rom", &Bytes(&self.rom))
            .field("vram", &Bytes(&self.vram))
            .field("wram", &Bytes(&self.wram))
            .field("save", &Bytes(&self.save))
            .field("log", &format_args!("{} of {} bytes", self.log().len(), self.log.len()))
            .field("kept", &self.kept)
            .field("screen", &self.host_numbers())
            .finish_non_exhaustive()
    }
}

/// Building, and what stands around the bus.
impl Memory {
    /// A fresh bus over a save as the host has kept it, with the longest log. Refused by `OutOfRange` for a description that no cartridge of
    /// this bus has, and by `WrongLength` for a ROM that is not whole banks, or a save of another length than `Cartridge::save_len`; a
    /// longer one that gameboy_core kept is cut by `Cartridge::save_from_gameboy_core`.
    pub fn new(cartridge: Cartridge, is_cgb: bool, save: &[u8]) -> Result<Memory, Refusal> {
        Memory::with_log(cartridge, is_cgb, save, LONGEST_LOG)
    }

    /// The same with a log of so many bytes. One record takes `RECORD_LEN`. Refused by `WrongLength` over `LONGEST_LOG` too.
    ///
    /// Panics where the linked archive is of a version that has images or records of another length than this crate.
    pub fn with_log(cartridge: Cartridge, is_cgb: bool, save: &[u8], log: usize) -> Result<Memory, Refusal> {
        let library = version();
        assert!((library.image_len, library.record_len) == (IMAGE_LEN, RECORD_LEN), "the archive is of version {library}, which this crate does not know");
        let Cartridge { mbc_type, ram_size, .. } = cartridge;
        let save_len = cartridge.save_len();
        let (vram, wram) = if is_cgb { COLOUR } else { MONOCHROME };
        let mut memory = Memory {
            image: [0; IMAGE_LEN],
            rom: cartridge.rom,
            vram: vec![0; vram],
            wram: vec![0; wram],
            save: save.to_vec(),
            // A longer one is refused too, and need not be made for that.
            log: vec![0; log.min(LONGEST_LOG + 1)],
            sound: [0; 48],
            kept: 0,
        };
        let banks = memory.rom.len() / BANK_LEN;
        let number = pouch_fresh(
            &mut memory.image,
            mbc_type as u8,
            u16::try_from(banks).unwrap_or(u16::MAX),
            ram_size,
            is_cgb,
            &memory.rom,
            &mut memory.vram,
            &mut memory.wram,
            &memory.save,
            &memory.log,
            &memory.sound,
        );
        let found = memory.rom.len();
        match number {
            0 => Ok(memory),
            3 if takes_banks(mbc_type, banks) => Err(Refusal::OutOfRange(OutOfRange::RamSize { mbc_type, found: ram_size })),
            3 => Err(Refusal::OutOfRange(OutOfRange::Rom { mbc_type, found })),
            4 => Err(first_wrong(&[
                (Which::Rom, found, Expected::Exactly(banks * BANK_LEN)),
                (Which::Save, save.len(), Expected::Exactly(save_len)),
                (Which::Log, log, Expected::AtMost(LONGEST_LOG)),
            ])),
            _ => never(number),
        }
    }

    /// The cartridge's ROM.
    pub fn rom(&self) -> &[u8] {
        &self.rom
    }

    /// The cartridge's RAM, as the game has left it.
    pub fn save(&self) -> &[u8] {
        &self.save
    }

    /// The save, to change it behind the game's back: to put another in its place, say. `None` while the log holds a record: played back over
    /// the changed save, it would undo the change. `Journal::drain` or `take_log` empties the log.
    ///
    /// No record tells such a change, so the host has no recovery for it but its save file. Around it, in this order: `Journal::drain`; bring
    /// the save file up to date by `save`, as a whole, and empty the journal; change the save; replace the file again before the game goes on.
    /// A session that ends in between is then taken up with the save before the change, or with the one after it, and never with a mixture.
    ///
    /// ```
    /// # let cartridge = pouchrattle::Cartridge { rom: vec![0; 32768], mbc_type: pouchrattle::MbcType::Mbc1, ram_size: 2 };
    /// # let mut memory = pouchrattle::Memory::new(cartridge, false, &[0; 8192]).unwrap();
    /// memory.write_byte(0x0000, 0x0A).unwrap();
    /// memory.write_byte(0xA000, 0x11).unwrap();
    /// assert!(memory.save_mut().is_none());
    /// let _kept = memory.take_log();
    /// memory.save_mut().expect("the log is empty")[0] = 0x22;
    /// assert_eq!(memory.read_byte(0xA000), 0x22);
    /// ```
    pub fn save_mut(&mut self) -> Option<&mut [u8]> {
        if self.log().is_empty() {
            Some(&mut self.save)
        } else {
            None
        }
    }

    /// The log's used bytes: a record for each save byte stored since the log was last cleared, in order.
    pub fn log(&self) -> &[u8] {
        &self.log[..usize::from(self.ask(pouch_log_used))]
    }

    /// Copies the log's used bytes off, with those that a journal has already, and clears the log. The host keeps them before anything else. `Journal`
    /// does both. Not after a `Journal::keep` that failed: the journal may end in part of a record, which only the next `keep` makes whole.
    #[must_use = "the log's bytes are gone from the bus: keep them"]
    pub fn take_log(&mut self) -> Vec<u8> {
        let used = self.log().to_vec();
        self.clear_log();
        used
    }

    /// How many bytes the log can hold.
    pub fn log_len(&self) -> usize {
        self.log.len()
    }

    /// The log's used bytes that no journal has yet.
    pub(crate) fn unkept(&self) -> &[u8] {
        &self.log()[self.kept..]
    }

    /// A journal has so many more bytes, of those that it was given.
    pub(crate) fn has_kept(&mut self, bytes: usize) {
        self.kept += bytes;
    }

    /// A journal begins: of the record that another has in part, it gets all.
    pub(crate) fn unkeep_part(&mut self) {
        self.kept -= self.kept % RECORD_LEN;
    }

    pub(crate) fn clear_log(&mut self) {
        done(pouch_clear_log(&mut self.image));
        self.kept = 0;
    }

    /// What FF10..FF3F read now; the host's sound part keeps it.
    pub fn sound(&self) -> &[u8; 48] {
        &self.sound
    }

    /// The same, for the host's sound part to set.
    pub fn sound_mut(&mut self) -> &mut [u8; 48] {
        &mut self.sound
    }

    /// Video memory, bank after bank.
    pub fn vram(&self) -> &[u8] {
        &self.vram
    }

    /// The same, to take a session up again.
    pub fn vram_mut(&mut self) -> &mut [u8] {
        &mut self.vram
    }

    /// Work memory, bank after bank.
    pub fn wram(&self) -> &[u8] {
        &self.wram
    }

    /// The same, to take a session up again.
    pub fn wram_mut(&mut self) -> &mut [u8] {
        &mut self.wram
    }

    /// The state. With it, video and work memory and the save, a session is whole. Who stores it stores the `version` beside it.
    pub fn image(&self) -> &Image {
        &self.image
    }

    /// Goes on from a state. Refused by `OutOfRange`, or by `WrongLength` if it is of a cartridge with other lengths, which says what the image
    /// expects of this bus. The log's use stays as it is now: it belongs to the log's bytes, which no image holds.
    ///
    /// An image of version 2.0 has as many bytes and another layout, and nothing in it tells: it may be taken for a state that it is not. A host compares the
    /// `version` that it stored beside it.
    pub fn set_image(&mut self, image: &Image) -> Result<(), Refusal> {
        match pouch_read_byte(image, &self.rom, &self.vram, &self.wram, &self.save, &self.sound, 0, &mut 0) {
            0 => {}
            3 => return Err(Refusal::OutOfRange(OutOfRange::Image)),
            4 => return Err(self.of_other_lengths(image)),
            number => never(number),
        }
        let used = self.ask(pouch_log_used);
        self.image = *image;
        done(pouch_set_log_used(&mut self.image, used));
        Ok(())
    }

    /// The library tells which lengths go with an image in its ranges: there is one that it takes.
    #[cold]
    fn of_other_lengths(&self, image: &Image) -> Refusal {
        let zeros = vec![0; 512 * BANK_LEN];
        for banks in [2, 4, 8, 16, 32, 64, 128, 256, 512] {
            for save in SAVE_LENS {
                for (vram, wram) in [MONOCHROME, COLOUR] {
                    let rom = banks * BANK_LEN;
                    if pouch_read_byte(image, &zeros[..rom], &zeros[..vram], &zeros[..wram], &zeros[..save], &self.sound, 0, &mut 0) == 0 {
                        return first_wrong(&[
                            (Which::Rom, self.rom.len(), Expected::Exactly(rom)),
                            (Which::Vram, self.vram.len(), Expected::Exactly(vram)),
                            (Which::Wram, self.wram.len(), Expected::Exactly(wram)),
                            (Which::Save, self.save.len(), Expected::Exactly(save)),
                        ]);
                    }
                }
            }
        }
        never(4)
    }

    /// A number that an entry makes of the image alone.
    #[inline]
    pub(super) fn ask(&self, entry: fn(&[u8], &mut u16) -> u8) -> u16 {
        let mut value = 0;
        done(entry(&self.image, &mut value));
        value
    }
}

/// Whether a mapper takes so many ROM banks: for a refusal's words alone, the library decides.
fn takes_banks(mbc_type: MbcType, banks: usize) -> bool {
    let most = match mbc_type {
        MbcType::RomOnly => 2,
        MbcType::Mbc1 => 128,
        MbcType::Mbc2 => 16,
        MbcType::Mbc5 => 512,
    };
    (2..=most).contains(&banks) && banks.is_power_of_two()
}

/// For lengths that the library refused: the first that is wrong.
#[cold]
pub(crate) fn first_wrong(lengths: &[(Which, usize, Expected)]) -> Refusal {
    let wrong = lengths.iter().find(|(_, found, expected)| match *expected {
        Expected::Exactly(bytes) => *found != bytes,
        Expected::AtMost(bytes) => *found > bytes,
        Expected::AnySave => !SAVE_LENS.contains(found),
    });
    match wrong {
        Some(&(memory, found, expected)) => Refusal::WrongLength(WrongLength { memory, found, expected }),
        None => never(4),
    }
}
