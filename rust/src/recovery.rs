//! A save brought up to date from its log or its journal.

use crate::convert::{log_to_new, OLD_RECORD_LEN};
use crate::entries::{pouch_log_to_new, pouch_recover};
use crate::journal::JOURNAL_MARK;
use crate::mmu::memory::first_wrong;
use crate::refusal::{never, Damaged, Expected, RecordBytes, Refusal, Which};
use crate::{LONGEST_LOG, RECORD_LEN};
use std::array;

/// As many records as a log can have: a journal is played in parts of so many.
const RECORDS: usize = LONGEST_LOG / RECORD_LEN;

/// How much of a journal was written. When the machine itself fails, a file system may show bytes that never arrived as zeros at the end. No record
/// begins with a 0, so where one would, the zeros go; and so does a record before them that ends in 0, as its last bytes may be such zeros too: one whose
/// value is a multiple of 4. Zeros that begin within the journal's last record cannot be told from its own bytes, and count. What `Journal::sync` has brought
/// to the disk stays, but for a last record that ends in 0 where such zeros follow. The mark has the length of a record, and does not end in 0.
/// pouch_journal_len of C is the same rule.
pub fn journal_len(journal: &[u8]) -> usize {
    written(journal, RECORD_LEN).len()
}

/// The same by records of so many bytes.
fn written(journal: &[u8], record: usize) -> &[u8] {
    let end = journal.iter().rposition(|byte| *byte != 0).map_or(0, |last| last + 1);
    if end.next_multiple_of(record) < journal.len() {
        &journal[..end / record * record]
    } else {
        journal
    }
}

/// Whether a journal begins with the mark, or with as much of it as arrived: the rest of its four bytes is not there, or zeros. pouch_journal_marked of C is the
/// same rule.
fn is_marked(journal: &[u8]) -> bool {
    let first = &journal[..journal.len().min(JOURNAL_MARK.len())];
    let arrived = first.iter().zip(JOURNAL_MARK).take_while(|(byte, mark)| *byte == mark).count();
    first[arrived..].iter().all(|byte| *byte == 0)
}

/// Brings a save up to date from a journal of any length, by what `journal_len` says was written, and gives how many records that is; up to 3 last bytes
/// are part of a record, and ignored. Played again over the same save, it gives the same save.
///
/// Refused by `WrongLength` for a save that no cartridge has; by `Unmarked` where its first four bytes are not `JOURNAL_MARK`, nor a beginning of it and then
/// zeros or the end, as a session or a machine that failed there leaves it; and by `Damaged`, with the first damaged record, counted from 0 behind the mark. The
/// save is then as it was.
///
/// A journal that a version before 3.0 wrote is refused by `Unmarked`, and `recover_old_journal` takes it. A host whose players have such journals says, once,
/// before it replaces the save's file and starts with an empty journal:
///
/// ```
/// use pouchrattle::{recover_journal, recover_old_journal, Refusal};
///
/// let mut save = vec![0; 8192];
/// let journal = [0x92, 0x34, 0x56]; // of version 2.0
/// let records = match recover_journal(&mut save, &journal) {
///     Err(Refusal::Unmarked) => recover_old_journal(&mut save, &journal)?,
///     other => other?,
/// };
/// assert_eq!((records, save[0x1234]), (1, 0x56));
/// # Ok::<(), Refusal>(())
/// ```
pub fn recover_journal(save: &mut [u8], journal: &[u8]) -> Result<usize, Refusal> {
    let mut copy = save.to_vec();
    recover(&mut copy, &[])?;
    // Before zeros are cut off by the length of a record: of an old journal's first one that could leave nothing.
    if !is_marked(journal) {
        return Err(Refusal::Unmarked);
    }
    let records = written(journal, RECORD_LEN).get(JOURNAL_MARK.len()..).unwrap_or(&[]);
    for (part, log) in records.chunks(RECORDS * RECORD_LEN).enumerate() {
        recover(&mut copy, log).map_err(|refusal| refusal.behind(part * RECORDS))?;
    }
    save.copy_from_slice(&copy);
    Ok(records.len() / RECORD_LEN)
}

/// The same for a journal of a version before 3.0: it has no mark, its records have three bytes, 1 or 2 last bytes are part of one, and zeros at its end are
/// told by that length. Nothing can be appended to it: replace the save's file as a whole, and start with an empty journal.
///
/// Refused by `WrongLength` for a save that no cartridge has; by `Marked` for a journal that begins with `JOURNAL_MARK`, or with as much of it as makes an old
/// record; and by `Damaged`, with the first damaged record. The save is then as it was.
pub fn recover_old_journal(save: &mut [u8], journal: &[u8]) -> Result<usize, Refusal> {
    let mut copy = save.to_vec();
    recover(&mut copy, &[])?;
    let records = written(journal, OLD_RECORD_LEN);
    // As an old record it would be told as damaged. Less of it is part of a record, as before.
    if records.len() >= OLD_RECORD_LEN && records[0] == JOURNAL_MARK[0] && is_marked(records) {
        return Err(Refusal::Marked);
    }
    for (part, old) in records.chunks(RECORDS * OLD_RECORD_LEN).enumerate() {
        let played = log_to_new(old).and_then(|log| recover(&mut copy, &log));
        played.map_err(|_| first_damaged_old(&mut copy, old).behind(part * RECORDS))?;
    }
    save.copy_from_slice(&copy);
    Ok(records.len() / OLD_RECORD_LEN)
}

/// Brings a save up to date: applies the whole records of a log to it, in order, and ignores up to 3 last bytes. Refused by `WrongLength` for a save that no
/// cartridge has, or a log of over `LONGEST_LOG` bytes (`recover_journal` takes any), and by `Damaged`, with the first damaged record: its first bit is 0, its
/// last six are not all 0, or its address is not below the save's length. The save is then as it was.
///
/// A log has no mark; one that a version before 3.0 left is converted by `log_to_new` before.
///
/// A save and its log are two memories:
///
/// ```
/// let mut save = vec![0; 8192];
/// let log = save[..0].to_vec();
/// pouchrattle::recover(&mut save, &log).unwrap();
/// ```
/// ```compile_fail
/// let mut save = vec![0; 8192];
/// let log = &save[..0];
/// pouchrattle::recover(&mut save, log).unwrap();
/// ```
pub fn recover(save: &mut [u8], log: &[u8]) -> Result<(), Refusal> {
    match pouch_recover(save, log) {
        0 => Ok(()),
        4 => Err(first_wrong(&[(Which::Save, save.len(), Expected::AnySave), (Which::Log, log.len(), Expected::AtMost(LONGEST_LOG))])),
        6 => Err(first_damaged(&mut save.to_vec(), log)),
        number => never(number),
    }
}

/// The library tells it: records are played one by one, on a copy, up to the one that is refused.
#[cold]
pub(crate) fn first_damaged(copy: &mut [u8], log: &[u8]) -> Refusal {
    for (record, bytes) in log.chunks_exact(RECORD_LEN).enumerate() {
        if pouch_recover(copy, bytes) == 6 {
            return Refusal::Damaged(Damaged { record, bytes: RecordBytes::New(array::from_fn(|at| bytes[at])) });
        }
    }
    never(6)
}

/// The same of old records, each converted and played before the next.
#[cold]
fn first_damaged_old(copy: &mut [u8], old: &[u8]) -> Refusal {
    for (record, bytes) in old.chunks_exact(OLD_RECORD_LEN).enumerate() {
        let mut new = [0; RECORD_LEN];
        if pouch_log_to_new(bytes, &mut new, &mut 0) == 6 || pouch_recover(copy, &new) == 6 {
            return Refusal::Damaged(Damaged { record, bytes: RecordBytes::Old(array::from_fn(|at| bytes[at])) });
        }
    }
    never(6)
}
