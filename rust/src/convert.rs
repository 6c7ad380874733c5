//! Logs of versions before 3.0, and back.

use crate::entries::{pouch_log_to_new, pouch_log_to_old, pouch_recover};
use crate::mmu::memory::first_wrong;
use crate::refusal::{never, BeyondOld, Damaged, Expected, RecordBytes, Refusal, Which};
use crate::{LONGEST_LOG, RECORD_LEN};
use std::array;

/// The bytes of a record before version 3.0: bit 1, address 15 bits, value 8 bits.
pub const OLD_RECORD_LEN: usize = 3;

/// The longest log of old records that a log of the present form has room for, in bytes: 16,383 records, and part of one.
pub const LONGEST_OLD_LOG: usize = (LONGEST_LOG / RECORD_LEN + 1) * OLD_RECORD_LEN - 1;

/// The bytes of the longest save. Every address of a record is below it.
const LONGEST_SAVE: usize = 131_072;

/// A log of a version before 3.0 in the present form: each whole record of three bytes becomes one of four, of the same address and value, in order. 1 or 2
/// last bytes are part of a record, and dropped. This is for logs, as `Memory::take_log` gave them; `recover_old_journal` takes a journal, of any length.
///
/// Refused by `WrongLength` over `LONGEST_OLD_LOG` bytes, as no log has more than `LONGEST_LOG`: give it in parts of whole records. Refused by `Damaged`, with the
/// first record whose first bit is 0. Whether addresses are below a save's length, `recover` tells.
///
/// ```
/// use pouchrattle::{log_to_new, log_to_old};
///
/// let log = log_to_new(&[0x92, 0x34, 0x56])?;
/// assert_eq!(log, [0x84, 0x8D, 0x15, 0x80]);
/// assert_eq!(log_to_old(&log)?, [0x92, 0x34, 0x56]);
/// # Ok::<(), pouchrattle::Refusal>(())
/// ```
pub fn log_to_new(old: &[u8]) -> Result<Vec<u8>, Refusal> {
    let mut log = target(old.len() / OLD_RECORD_LEN * RECORD_LEN);
    let mut len = 0;
    match pouch_log_to_new(old, &mut log, &mut len) {
        0 => Ok(first(log, len)),
        4 => Err(first_wrong(&[(Which::Log, old.len(), Expected::AtMost(LONGEST_OLD_LOG))])),
        6 => Err(first_damaged(old)),
        number => never(number),
    }
}

/// A log in the form of versions before 3.0, for one of them to take. Up to 3 last bytes are part of a record, and dropped.
///
/// Refused by `WrongLength` over `LONGEST_LOG` bytes; by `Damaged`, with the first record whose first bit is 0 or whose last six bits are not all 0; and, where
/// none is damaged, by `BeyondOld`, with the first record whose address is 32,768 or more: three bytes do not hold it.
pub fn log_to_old(log: &[u8]) -> Result<Vec<u8>, Refusal> {
    let mut old = target(log.len() / RECORD_LEN * OLD_RECORD_LEN);
    let mut len = 0;
    match pouch_log_to_old(log, &mut old, &mut len) {
        0 => Ok(first(old, len)),
        4 => Err(first_wrong(&[(Which::Log, log.len(), Expected::AtMost(LONGEST_LOG))])),
        6 => Err(not_old(log)),
        number => never(number),
    }
}

/// Room for all records of any log, so that only the library tells how many it takes. What is longer is refused, and need not be made for that.
fn target(len: usize) -> Vec<u8> {
    vec![0; len.min(2 * LONGEST_LOG)]
}

/// What was written of a target.
fn first(mut target: Vec<u8>, len: u16) -> Vec<u8> {
    target.truncate(len.into());
    target
}

/// The library tells it: records are converted one by one, up to the one that is refused.
#[cold]
fn first_damaged(old: &[u8]) -> Refusal {
    for (record, bytes) in old.chunks_exact(OLD_RECORD_LEN).enumerate() {
        if pouch_log_to_new(bytes, &mut [0; RECORD_LEN], &mut 0) == 6 {
            return Refusal::Damaged(Damaged { record, bytes: RecordBytes::Old(array::from_fn(|at| bytes[at])) });
        }
    }
    never(6)
}

/// Here too; over the longest save, only what is damaged is refused.
#[cold]
fn not_old(log: &[u8]) -> Refusal {
    let mut save = vec![0; LONGEST_SAVE];
    if pouch_recover(&mut save, log) == 6 {
        return crate::recovery::first_damaged(&mut save, log);
    }
    for (record, bytes) in log.chunks_exact(RECORD_LEN).enumerate() {
        if pouch_log_to_old(bytes, &mut [0; OLD_RECORD_LEN], &mut 0) == 6 {
            return Refusal::BeyondOld(BeyondOld { record, bytes: array::from_fn(|at| bytes[at]) });
        }
    }
    never(6)
}
