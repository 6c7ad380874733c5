//! The save's log, kept: a journal that holds every record.

use crate::Memory;
use std::fs::{File, OpenOptions};
use std::io::{Error, ErrorKind, Result as IoResult, Write};
use std::path::Path;

/// With what a journal begins: "PL4" and a line feed. Journals of versions before 3.0 have no mark, and records of three bytes: they begin with a byte of
/// 0x80 or more. So neither is taken for the other, here or by an older version, for which the mark is a damaged record.
pub const JOURNAL_MARK: [u8; 4] = *b"PL4\n";

/// Keeps the log of a bus in a file, or in whatever takes bytes: `JOURNAL_MARK`, and then every record once and in order. With the save as it was when the
/// journal was empty, `recover_journal` brings a save up to date after a session that ended without warning. A bus has one journal: a record that one has
/// taken, no other gets.
///
/// The mark is written right before the first record. A session in which the game saved nothing leaves its journal empty: there is nothing to recover, and
/// an older version may go on with it.
///
/// ```
/// # let cartridge = pouchrattle::Cartridge { rom: vec![0; 32768], mbc_type: pouchrattle::MbcType::Mbc1, ram_size: 2 };
/// # let mut memory = pouchrattle::Memory::new(cartridge, false, &[0; 8192]).unwrap();
/// use pouchrattle::{recover_journal, Journal, Refusal};
///
/// let mut journal = Journal::new(Vec::new()); // for a file: Journal::open(path)
/// memory.write_byte(0x0000, 0x0A)?;
/// while memory.write_byte(0xA123, 0x56) == Err(Refusal::NoRoom) {
///     journal.keep(&mut memory)?;
/// }
/// journal.keep(&mut memory)?; // once a frame, say
///
/// let mut save = vec![0; 8192];
/// assert_eq!(recover_journal(&mut save, journal.get_ref())?, 1);
/// assert_eq!(save, memory.save());
/// # Ok::<(), Box<dyn std::error::Error>>(())
/// ```
#[derive(Debug)]
pub struct Journal<W> {
    to: W,
    /// The mark's bytes that it has taken.
    marked: usize,
    /// Whether it has been emptied since, where that can be told.
    is_emptied: fn(&W) -> IoResult<bool>,
}

impl Journal<File> {
    /// A journal in a file, which is made if it is not there. It must be empty: refused by `ErrorKind::AlreadyExists` if it holds a byte. A
    /// session that ended without warning may have left part of a record, behind which no other could be read; and behind records of a version before 3.0 none of
    /// this one could. Bring the save up to date by `recover_journal`, or `recover_old_journal`, replace its file as a whole, and only then empty the journal or
    /// remove it.
    pub fn open(path: impl AsRef<Path>) -> IoResult<Journal<File>> {
        let file = OpenOptions::new().append(true).create(true).open(path)?;
        if file.metadata()?.len() > 0 {
            return Err(Error::new(ErrorKind::AlreadyExists, "the journal holds records of another session: recover from it first"));
        }
        Ok(Journal { is_emptied, ..Journal::new(file) })
    }

    /// Makes what is kept outlive the machine; `keep` makes it outlive this process. Refused as the file system refuses it.
    pub fn sync(&self) -> IoResult<()> {
        self.to.sync_data()
    }

    /// Empties the file: after `drain`, and once the save's file was replaced as a whole. The next record begins it anew, behind its mark. Refused as the file
    /// system refuses it.
    pub fn clear(&mut self) -> IoResult<()> {
        self.clear_by(|file| file.set_len(0))
    }
}

/// A host may cut a file that it is lent by `get_ref` alone, or by its path.
fn is_emptied(file: &File) -> IoResult<bool> {
    let metadata = file.metadata()?;
    Ok(metadata.is_file() && metadata.len() == 0)
}

impl<W: Write> Journal<W> {
    /// A journal in what takes bytes, and has none yet: an empty file opened to append, say.
    pub fn new(to: W) -> Journal<W> {
        Journal { to, marked: 0, is_emptied: |_| Ok(false) }
    }

    /// Appends the log's new bytes, and clears the log once over half of it is used and all of that is written. After `NoRoom` of a write:
    /// keep, and write again. A log of four records or more then has room.
    ///
    /// Refused by an error of what takes the bytes, nothing is lost: the next call goes on with the first byte that was not taken, of the mark or of a record.
    pub fn keep(&mut self, memory: &mut Memory) -> IoResult<()> {
        if !memory.unkept().is_empty() {
            self.begin(memory)?;
        }
        while !memory.unkept().is_empty() {
            memory.has_kept(self.give(memory.unkept())?);
        }
        self.to.flush()?;
        if memory.log().len() > memory.log_len() / 2 {
            memory.clear_log();
        }
        Ok(())
    }

    /// Writes what is missing of the mark.
    fn begin(&mut self, memory: &mut Memory) -> IoResult<()> {
        if self.marked > 0 && (self.is_emptied)(&self.to)? {
            self.marked = 0;
        }
        if self.marked < JOURNAL_MARK.len() {
            // Of this record another journal may have taken a part, or this one before it was emptied: behind the mark it stands whole.
            memory.unkeep_part();
        }
        while self.marked < JOURNAL_MARK.len() {
            self.marked += self.give(&JOURNAL_MARK[self.marked..])?;
        }
        Ok(())
    }

    /// How many of these bytes were taken: one or more.
    fn give(&mut self, bytes: &[u8]) -> IoResult<usize> {
        loop {
            match self.to.write(bytes) {
                Ok(0) => return Err(Error::from(ErrorKind::WriteZero)),
                Ok(taken) => return Ok(taken.min(bytes.len())),
                Err(error) if error.kind() == ErrorKind::Interrupted => {}
                Err(error) => return Err(error),
            }
        }
    }

    /// Keeps, and clears the log however little of it is used: before `Memory::save_mut`, or at a session's end. Refused as `keep` is, it clears
    /// nothing.
    pub fn drain(&mut self, memory: &mut Memory) -> IoResult<()> {
        self.keep(memory)?;
        memory.clear_log();
        Ok(())
    }

    /// What takes the bytes. Nothing else may write to it, and `clear_by` empties it.
    pub fn get_ref(&self) -> &W {
        &self.to
    }

    /// As `clear`, for whatever takes the bytes: what is given must leave none in it. Refused by its error, the journal goes on where it stood.
    ///
    /// ```
    /// # let mut journal = pouchrattle::Journal::new(Vec::new());
    /// journal.clear_by(|bytes| {
    ///     bytes.clear();
    ///     Ok(())
    /// })?;
    /// # Ok::<(), std::io::Error>(())
    /// ```
    pub fn clear_by(&mut self, empty: impl FnOnce(&mut W) -> IoResult<()>) -> IoResult<()> {
        empty(&mut self.to)?;
        self.marked = 0;
        Ok(())
    }

    /// What takes the bytes, and the journal ends.
    pub fn into_inner(self) -> W {
        self.to
    }
}
