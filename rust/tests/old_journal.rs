//! Journals of versions before 3.0: each of the two recoveries takes its own and refuses the other's. The old rule is document 01's: records of three bytes, bit 1,
//! address 15 bits, value 8 bits; 1 or 2 last bytes ignored.

mod common;

use common::record;
use pouchrattle::{
    log_to_new, recover_journal, recover_old_journal, Damaged, Expected, Journal, MbcType, Memory, RecordBytes, Refusal, Which, WrongLength, JOURNAL_MARK,
    LONGEST_LOG, OLD_RECORD_LEN, RECORD_LEN,
};

const SAVE_LEN: usize = 8192;

fn old_record(at: usize, value: u8) -> [u8; 3] {
    [0x80 | (at >> 8) as u8, at as u8, value]
}

/// Save write i of a list: address and value. Every 256th value is 0.
fn game(i: usize) -> (usize, u8) {
    (i * 4093 % SAVE_LEN, (i * 7) as u8)
}

/// The old journal of the first writes, and the save after them.
fn old_journal(writes: usize) -> (Vec<u8>, Vec<u8>) {
    let mut save = vec![0; SAVE_LEN];
    (0..writes).map(game).for_each(|(at, value)| save[at] = value);
    ((0..writes).map(game).flat_map(|(at, value)| old_record(at, value)).collect(), save)
}

fn damaged(record: usize, bytes: [u8; 3]) -> Refusal {
    Refusal::Damaged(Damaged { record, bytes: RecordBytes::Old(bytes) })
}

#[test]
fn each_refuses_the_others() {
    for writes in [1, 2, 3, 4, 100] {
        let (old, after) = old_journal(writes);
        let mut save = vec![0; SAVE_LEN];
        assert_eq!(recover_journal(&mut save, &old), Err(Refusal::Unmarked));
        assert!(save == [0; SAVE_LEN]);
        assert_eq!(recover_old_journal(&mut save, &old), Ok(writes));
        assert!(save == after);

        // The journal of the same writes now.
        let cartridge = common::cartridge(MbcType::Mbc1, 2, 2);
        let mut memory = Memory::new(cartridge, false, &[0; SAVE_LEN]).unwrap();
        common::write(&mut memory, &[(0x0000, 0x0A)]);
        (0..writes).map(game).for_each(|(at, value)| common::write(&mut memory, &[(0xA000 + at as u16, value)]));
        let mut journal = Journal::new(Vec::new());
        journal.keep(&mut memory).unwrap();
        let journal = journal.into_inner();
        assert!(journal[..4] == JOURNAL_MARK && journal[0] < 0x80 && old[0] >= 0x80);
        let mut save = vec![0; SAVE_LEN];
        assert_eq!(recover_old_journal(&mut save, &journal), Err(Refusal::Marked));
        assert!(save == [0; SAVE_LEN]);
        assert_eq!(recover_journal(&mut save, &journal), Ok(writes));
        assert!(save == after);
    }
    // Of which only a part arrived: as much as an old record, or less, which is no record of either.
    for arrived in 1..=4 {
        for zeros in [0, 1, 2, 3, 20] {
            let journal = [&JOURNAL_MARK[..arrived], &vec![0; zeros]].concat();
            // Zeros that begin within the last record count.
            let expected = if arrived > 2 || arrived + zeros == 3 { Err(Refusal::Marked) } else { Ok(0) };
            assert_eq!(recover_old_journal(&mut [0; 512], &journal), expected, "{arrived} {zeros}");
        }
    }
    // Other bytes at its place are a damaged record.
    for journal in [[0x50, 0x4C, 0x35], [0x50, 0x00, 0x34], [0x7F, 0x00, 0x01], [0x00, 0x4C, 0x34]] {
        assert_eq!(recover_old_journal(&mut [0; 512], &journal), Err(damaged(0, journal)));
    }
    // Both take one without a byte, or of zeros: nothing was saved.
    for zeros in 0..=20 {
        assert_eq!(recover_old_journal(&mut [0; 512], &vec![0; zeros]), Ok(0));
        assert_eq!(recover_journal(&mut [0; 512], &vec![0; zeros]), Ok(0));
    }
    let words = "the journal begins with the mark of version 3, 50 4C 34 0A: recover_journal takes it";
    assert_eq!((Refusal::Marked.number(), Refusal::Marked.to_string().as_str()), (6, words));
}

/// What tells them apart: whatever an old journal's first record, it is not the mark, and not a part of it.
#[test]
fn every_first_record() {
    for first in 0x80..=0xFF {
        for len in 1..=4 {
            let journal = [first, 0x4C, 0x34, 0x8A];
            assert_eq!(recover_journal(&mut vec![0; 32768], &journal[..len]), Err(Refusal::Unmarked));
            assert_eq!(recover_old_journal(&mut vec![0; 32768], &journal[..len]), Ok(len / 3));
        }
    }
}

/// An old journal that a failing machine left with zeros at its end is still an old one, however short: cut off by four bytes, they would leave nothing of
/// its first record.
#[test]
fn zeros_behind_a_few_old_records() {
    for (records, zeros) in (1..=6).flat_map(|records| (0..=20).map(move |zeros| (records, zeros))) {
        let list: Vec<(usize, u8)> = (0..records).map(|i| (i, 0x11 * (i + 1) as u8)).collect();
        let mut journal: Vec<u8> = list.iter().flat_map(|&(at, value)| old_record(at, value)).collect();
        journal.resize(journal.len() + zeros, 0);
        let mut save = [0; 512];
        assert_eq!(recover_journal(&mut save, &journal), Err(Refusal::Unmarked), "{records} {zeros}");
        assert!(save == [0; 512]);
        assert_eq!(recover_old_journal(&mut save, &journal), Ok(records));
        assert!(list.iter().all(|&(at, value)| save[at] == value));
    }
}

/// As torn_at_every_byte of journal.rs, by records of three bytes.
#[test]
fn torn_at_every_byte() {
    const WRITES: usize = 60;
    let (journal, _) = old_journal(WRITES);
    for n in 0..=journal.len() {
        let whole = n / OLD_RECORD_LEN;
        let mut save = vec![0; SAVE_LEN];
        assert_eq!(recover_old_journal(&mut save, &journal[..n]), Ok(whole));
        assert!(save == old_journal(whole).1, "{n}");
        let doubtful = n % OLD_RECORD_LEN == 0 && n > 0 && n < journal.len() && journal[n - 1] == 0;
        let last = n > journal.len() - OLD_RECORD_LEN;
        let mut torn = journal.clone();
        torn[n..].fill(0);
        let mut save = vec![0; SAVE_LEN];
        let played = recover_old_journal(&mut save, &torn).unwrap();
        assert_eq!(played, if last { WRITES } else { whole - usize::from(doubtful) }, "{n}");
        assert!(last || save == old_journal(played).1, "{n}");
    }
    assert!((0..WRITES).any(|i| game(i).1 == 0));
}

/// Parts are of as many records as a log has now.
#[test]
fn a_damaged_record_of_any_part() {
    let most = LONGEST_LOG / RECORD_LEN;
    let (good, after) = old_journal(2 * most + 100);
    for number in [0, 1, most - 1, most, most + 1, 21845, 2 * most - 1, 2 * most, 2 * most + 99] {
        // The first bit is 0; the address is not below the save's length. A later one is not told, whichever it is.
        for bytes in [[0x00, 0x01, 0xFF], old_record(SAVE_LEN, 0x0F), old_record(32767, 0x0F)] {
            for later in [[0x7F, 0x00, 0x01], old_record(SAVE_LEN, 0x01)] {
                let mut journal = good.clone();
                [number + 1, 2 * most + 99].into_iter().filter(|at| *at < 2 * most + 100).for_each(|at| journal[at * 3..][..3].copy_from_slice(&later));
                journal[number * 3..][..3].copy_from_slice(&bytes);
                let mut save = vec![0x11; SAVE_LEN];
                assert_eq!(recover_old_journal(&mut save, &journal), Err(damaged(number, bytes)));
                assert!(save.iter().all(|byte| *byte == 0x11), "{number}");
            }
        }
    }
    let mut save = vec![0; SAVE_LEN];
    for _ in 0..2 {
        assert_eq!(recover_old_journal(&mut save, &good), Ok(2 * most + 100));
        assert!(save == after);
    }
    let mut journal = good;
    journal[21846 * 3..][..3].copy_from_slice(&[0x00, 0x01, 0xFF]);
    assert_eq!(recover_old_journal(&mut save, &journal).unwrap_err().to_string(), "record 21,846 is damaged: 00 01 FF");
}

/// Kept instead of played: the mark, and the records converted in parts, are a journal of this version.
#[test]
fn converted_to_a_journal() {
    for writes in [1, 100, 16383, 16384, 40_000] {
        let (old, after) = old_journal(writes);
        let mut journal = JOURNAL_MARK.to_vec();
        old.chunks(16383 * OLD_RECORD_LEN).for_each(|part| journal.extend(log_to_new(part).unwrap()));
        let mut save = vec![0; SAVE_LEN];
        assert_eq!(recover_journal(&mut save, &journal), Ok(writes));
        assert!(save == after);
    }
}

/// Every save, up to its last byte, and one behind it. A save of 131,072 bytes is taken too, though no older version had one.
#[test]
fn saves() {
    for len in [0, 512, 8192, 32768, 131_072] {
        for at in [0, 511, 512, 8191, 8192, 32767] {
            let mut save = vec![0x11; len];
            let answer = recover_old_journal(&mut save, &old_record(at, 0x77));
            assert_eq!(answer, if at < len { Ok(1) } else { Err(damaged(0, old_record(at, 0x77))) });
            assert!(save.iter().enumerate().all(|(place, byte)| *byte == if at < len && place == at { 0x77 } else { 0x11 }));
        }
    }
    for found in [1, 511, 8193, 131_071] {
        for journal in [&[][..], &JOURNAL_MARK, &[0x00, 0x01, 0xFF]] {
            let wrong = WrongLength { memory: Which::Save, found, expected: Expected::AnySave };
            assert_eq!(recover_old_journal(&mut vec![0; found], journal), Err(Refusal::WrongLength(wrong)));
        }
    }
}

/// The mark damaged in any bit, before records of four bytes: neither recovery takes it for something else.
#[test]
fn a_damaged_mark() {
    for (bit, value) in (0..32).flat_map(|bit| (0..=0xFF).map(move |value| (bit, value))) {
        let mut journal = [&JOURNAL_MARK[..], &record(0x1234, value), &record(0x0042, value)].concat();
        journal[bit / 8] ^= 0x80 >> (bit % 8);
        let mut save = vec![0; 32768];
        assert_eq!(recover_journal(&mut save, &journal), Err(Refusal::Unmarked));
        assert!(matches!(recover_old_journal(&mut save, &journal), Err(Refusal::Damaged(_))), "{bit} {value}");
    }
}
