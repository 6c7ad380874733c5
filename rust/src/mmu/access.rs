use super::memory::{first_wrong, Memory, LONGEST_BLOCK};
use crate::entries::*;
use crate::refusal::{done, never, unless, written, Expected, Refusal, Which, Written};

/// Reads, writes and transfers.
impl Memory {
    /// The byte that the processor reads at an index. A read changes nothing, and nothing refuses it.
    #[inline]
    pub fn read_byte(&self, index: u16) -> u8 {
        let mut value = 0;
        done(pouch_read_byte(&self.image, &self.rom, &self.vram, &self.wram, &self.save, &self.sound, index, &mut value));
        value
    }

    /// The bytes at an index and at the next one, low byte first; FFFF is followed by 0000. Nothing refuses it.
    #[inline]
    pub fn read_word(&self, index: u16) -> u16 {
        let mut value = 0;
        done(pouch_read_word(&self.image, &self.rom, &self.vram, &self.wram, &self.save, &self.sound, index, &mut value));
        value
    }

    /// The bytes from `index` on, as many as `out` has, each as `read_byte` gives it; FFFF is followed by 0000. Refused by `WrongLength` where
    /// `out` is longer than `LONGEST_BLOCK`.
    #[inline]
    pub fn read_block(&self, index: u16, out: &mut [u8]) -> Result<(), Refusal> {
        match pouch_read_block(&self.image, &self.rom, &self.vram, &self.wram, &self.save, &self.sound, index, out) {
            0 => Ok(()),
            4 => Err(first_wrong(&[(Which::Block, out.len(), Expected::AtMost(LONGEST_BLOCK))])),
            number => never(number),
        }
    }

    /// The processor writes a byte. A save byte that the mapper lets in is stored and logged. Refused by `NoRoom` alone, at A000..BFFF: keep
    /// the log, and write again.
    #[inline]
    pub fn write_byte(&mut self, index: u16, value: u8) -> Result<Written, Refusal> {
        written(pouch_write_byte(&mut self.image, &self.rom, &mut self.vram, &mut self.wram, &mut self.save, &mut self.log, &self.sound, index, value))
    }

    /// Two byte writes, low byte first; FFFF is followed by 0000. Refused by `NoRoom` alone, and then neither byte is written.
    #[inline]
    pub fn write_word(&mut self, index: u16, value: u16) -> Result<Written, Refusal> {
        written(pouch_write_word(&mut self.image, &self.rom, &mut self.vram, &mut self.wram, &mut self.save, &mut self.log, &self.sound, index, value))
    }

    /// Video memory by its bank, whichever the game has selected: 0, in colour 0 or 1. Refused by `Outside` off 8000..9FFF and off the banks.
    #[inline]
    pub fn read_cgb_lcd_ram(&self, index: u16, bank: i32) -> Result<u8, Refusal> {
        let mut value = 0;
        let bank = u8::try_from(bank).unwrap_or(u8::MAX);
        unless(Refusal::Outside, pouch_read_cgb_lcd_ram(&self.image, &self.vram, index, bank, &mut value)).map(|()| value)
    }

    /// The transfer of 160 bytes to FE00..FE9F that a write of this page to FF46 runs: pages 00..DF copy, those below 80 as the mapper
    /// shows them; others do nothing. Nothing refuses it.
    #[inline]
    pub fn do_dma_transfer(&mut self, data: u8) {
        done(pouch_do_dma_transfer(&mut self.image, &self.rom, &mut self.vram, &mut self.wram, &mut self.save, &mut self.log, &self.sound, data));
    }

    /// One block of 16 bytes to video memory, for each line's end while `is_hdma_enabled`; gives the cycles that it takes. Nothing refuses it.
    #[inline]
    pub fn do_hdma(&mut self) -> i32 {
        let mut value = 0;
        done(pouch_do_hdma(&mut self.image, &self.rom, &mut self.vram, &mut self.wram, &mut self.save, &mut self.log, &self.sound, &mut value));
        i32::from(value)
    }
}
