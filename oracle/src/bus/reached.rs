//! What lists of calls must reach, counted while they are made anew. A list that never
//! comes to a limit shows nothing there.

use std::io::{self, Error, Write};

use super::excepted::{records, SAVE};
use super::host::Host;
use crate::hex;
use crate::record;

const RAM_BANKS: usize = 16;

#[derive(Default)]
pub struct Reached {
    /// With RAM code 4, in each RAM bank.
    stores: [usize; RAM_BANKS],
    reads: [usize; RAM_BANKS],
    /// Bytes and words that are stored in the last room of the log, and those that lack
    /// one byte of it.
    fit: [usize; 2],
    lack: [usize; 2],
}

impl Reached {
    /// Looks at a call before it is made.
    pub fn look(&mut self, host: &Host, letter: char, input: &[u8]) {
        let (needed, free) = (records(letter, input), host.free());
        let length = needed * record::LENGTH;
        if needed > 0 && host.stores() {
            self.fit[needed - 1] += usize::from(free == length);
            self.lack[needed - 1] += usize::from(free + 1 == length);
        }
        if host.shape.code < 4 || !host.stores() {
            return;
        }
        let bank = host.banks().ram;
        if letter == 'R' && SAVE.contains(&hex::word(input)) {
            self.reads[bank] += 1;
        }
        if letter == 'W' && needed == 1 && free >= length {
            self.stores[bank] += 1;
        }
    }

    /// Tells how often, and fails where something was not reached.
    pub fn report(&self, out: &mut dyn Write) -> io::Result<()> {
        let least = |counts: [usize; RAM_BANKS]| counts.into_iter().min().unwrap_or(0);
        let (stores, reads) = (least(self.stores), least(self.reads));
        let ([byte, word], [no_byte, no_word]) = (self.fit, self.lack);
        let (one, two) = (record::LENGTH, 2 * record::LENGTH);
        writeln!(
            out,
            "reached: RAM code 4, at least {stores} bytes stored in each of 16 banks, {reads} read; \
             {byte} bytes with {one} free in the log, {no_byte} with {}; \
             {word} words with {two} free, {no_word} with {}",
            one - 1,
            two - 1
        )?;
        if [stores, reads, byte, word, no_byte, no_word].contains(&0) {
            return Err(Error::other("something was not reached"));
        }
        Ok(())
    }
}
