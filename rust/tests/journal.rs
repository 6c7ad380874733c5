//! The journal holds every stored byte once and in order behind its mark, whatever the log's length and however badly the file takes it; recovery from it
//! gives the save, also from one that is longer than a log can be, or torn. As c/tests/journal.c for C. Journals of versions before 3.0 are in old_journal.rs.

mod common;

use common::{cartridge, record, write};
use pouchrattle::{
    journal_len, recover_journal, Damaged, Expected, Journal, MbcType, Memory, RecordBytes, Refusal, Which, WrongLength, JOURNAL_MARK, LONGEST_LOG, RECORD_LEN,
};
use std::cell::Cell;
use std::fs::{self, OpenOptions};
use std::io::{BufWriter, Error, ErrorKind, Result, Write};

const SAVE_LEN: usize = 8192;

/// The mappers that enable RAM of a code.
const MAPPERS: [MbcType; 2] = [MbcType::Mbc1, MbcType::Mbc5];

/// A mapper with 8,192 bytes of RAM, enabled, all 0, and a log of so many bytes.
fn bus_of(mbc_type: MbcType, log: usize) -> Memory {
    let mut memory = Memory::with_log(cartridge(mbc_type, 2, 2), false, &[0; SAVE_LEN], log).unwrap();
    write(&mut memory, &[(0x0000, 0x0A)]);
    memory
}

fn bus(log: usize) -> Memory {
    bus_of(MbcType::Mbc1, log)
}

/// Save write i of the list: address and value. Every 256th value is 0.
fn game(i: usize) -> (u16, u8) {
    ((i * 4093 % SAVE_LEN) as u16, (i * 7) as u8)
}

/// The mark's bytes.
const MARK: [u8; 4] = [0x50, 0x4C, 0x34, 0x0A];

/// The journal of the first writes, and the save after them. It is empty before the first.
fn records(writes: usize) -> (Vec<u8>, Vec<u8>) {
    let (mut journal, mut save) = (Vec::new(), vec![0; SAVE_LEN]);
    for (at, value) in (0..writes).map(game) {
        if journal.is_empty() {
            journal.extend(MARK);
        }
        journal.extend(record(usize::from(at), value));
        save[usize::from(at)] = value;
    }
    (journal, save)
}

/// The bytes of a journal of so many records.
fn len_of(records: usize) -> usize {
    if records == 0 {
        0
    } else {
        MARK.len() + records * RECORD_LEN
    }
}

/// The whole records of a journal's first n bytes.
fn whole(n: usize) -> usize {
    n.saturating_sub(MARK.len()) / RECORD_LEN
}

/// Makes write i, and keeps the log where it has no room.
fn play<W: Write>(memory: &mut Memory, journal: &mut Journal<W>, i: usize) {
    let (at, value) = game(i);
    if memory.write_byte(0xA000 + at, value) == Err(Refusal::NoRoom) {
        journal.keep(memory).unwrap();
        write(memory, &[(0xA000 + at, value)]);
    }
}

fn recovered(journal: &[u8]) -> Vec<u8> {
    let mut save = vec![0; SAVE_LEN];
    recover_journal(&mut save, journal).unwrap();
    save
}

#[test]
fn every_record_once_and_in_order() {
    // Kept after NoRoom alone; then at some pace; then a journal longer than the longest log.
    let short = (4 * RECORD_LEN..53).map(|log| (log, 60, usize::MAX));
    for (log, writes, pace) in short.chain([(4095, 3000, 10), (LONGEST_LOG, 30_000, 5000)]) {
        for mbc_type in MAPPERS {
            let (mut memory, mut journal) = (bus_of(mbc_type, log), Journal::new(Vec::new()));
            for i in 0..writes {
                play(&mut memory, &mut journal, i);
                if i % pace == pace - 1 {
                    journal.keep(&mut memory).unwrap();
                }
            }
            journal.keep(&mut memory).unwrap();
            let (expected, save) = records(writes);
            assert!(*journal.get_ref() == expected && memory.save() == save, "{log}");
            assert!(recovered(journal.get_ref()) == save, "{log}");
        }
    }
}

#[test]
fn the_log_is_cleared_once_over_half_is_used() {
    for log in [12, 13, 30, 31] {
        let (mut memory, mut journal) = (bus(log), Journal::new(Vec::new()));
        let mut used = 0;
        for i in 0..40 {
            play(&mut memory, &mut journal, i);
            used += RECORD_LEN;
            assert_eq!(memory.log().len(), used);
            journal.keep(&mut memory).unwrap();
            used = if used > log / 2 { 0 } else { used };
            assert_eq!(memory.log().len(), used);
        }
    }
    // However little is used.
    let (mut memory, mut journal) = (bus(LONGEST_LOG), Journal::new(Vec::new()));
    play(&mut memory, &mut journal, 0);
    journal.drain(&mut memory).unwrap();
    assert!(memory.log().is_empty() && memory.save_mut().is_some());
    assert_eq!(journal.into_inner().len(), len_of(1));
}

#[test]
fn the_mark() {
    assert_eq!(JOURNAL_MARK, MARK);
    assert_eq!((&JOURNAL_MARK, JOURNAL_MARK.len()), (b"PL4\n", RECORD_LEN));
    // To a version before 3.0 it is a damaged record; and a journal that one of those wrote begins with another byte.
    assert!(JOURNAL_MARK[0] < 0x80);
    // It comes with the first record, and once.
    let (mut memory, mut journal) = (bus(LONGEST_LOG), Journal::new(Vec::new()));
    for _ in 0..3 {
        journal.keep(&mut memory).unwrap();
        journal.drain(&mut memory).unwrap();
        assert!(journal.get_ref().is_empty());
    }
    for i in 0..5 {
        play(&mut memory, &mut journal, i);
        journal.drain(&mut memory).unwrap();
        journal.keep(&mut memory).unwrap();
        assert!(*journal.get_ref() == records(i + 1).0);
    }
}

#[test]
fn an_emptied_journal_begins_with_its_mark() {
    let (mut memory, mut journal) = (bus(LONGEST_LOG), Journal::new(Vec::new()));
    for i in 0..4 {
        play(&mut memory, &mut journal, i);
        journal.keep(&mut memory).unwrap();
    }
    assert!(*journal.get_ref() == records(4).0);
    // Refused, it goes on where it stood.
    let refused = journal.clear_by(|_| Err(Error::from(ErrorKind::PermissionDenied)));
    assert_eq!(refused.unwrap_err().kind(), ErrorKind::PermissionDenied);
    play(&mut memory, &mut journal, 4);
    journal.keep(&mut memory).unwrap();
    assert!(*journal.get_ref() == records(5).0);

    let mut save = memory.save().to_vec();
    for emptied in 1..=2 {
        journal
            .clear_by(|bytes| {
                bytes.clear();
                Ok(())
            })
            .unwrap();
        journal.keep(&mut memory).unwrap();
        assert!(journal.get_ref().is_empty());
        play(&mut memory, &mut journal, 4 + emptied);
        journal.keep(&mut memory).unwrap();
        assert!(*journal.get_ref() == [&MARK[..], &records(5 + emptied).0[len_of(4 + emptied)..]].concat());
        assert_eq!(recover_journal(&mut save, journal.get_ref()), Ok(1));
        assert!(save == memory.save());
    }
}

#[test]
fn a_log_that_was_taken_off_is_not_the_journals() {
    // What the journal has of a log ends with the log.
    let (mut memory, mut journal) = (bus(LONGEST_LOG), Journal::new(Vec::new()));
    for i in 0..4 {
        play(&mut memory, &mut journal, i);
        journal.keep(&mut memory).unwrap();
    }
    assert_eq!(memory.take_log().len(), 4 * RECORD_LEN);
    play(&mut memory, &mut journal, 4);
    journal.keep(&mut memory).unwrap();
    assert!(*journal.get_ref() == records(5).0);
    // An older state keeps the log that there is, and so what the journal has of it.
    let image = *bus(LONGEST_LOG).image();
    memory.set_image(&image).unwrap();
    journal.keep(&mut memory).unwrap();
    assert!(*journal.get_ref() == records(5).0);
}

/// Takes bytes as a bad file does: so many at a time, up to a limit, and then it answers by this error (`None`: by 0 bytes taken).
struct Bad {
    taken: Vec<u8>,
    at_a_time: usize,
    limit: Cell<usize>,
    error: Option<ErrorKind>,
    interrupted: bool,
}

impl Write for Bad {
    fn write(&mut self, bytes: &[u8]) -> Result<usize> {
        self.interrupted = !self.interrupted;
        if self.interrupted {
            return Err(Error::from(ErrorKind::Interrupted));
        }
        let room = self.limit.get() - self.taken.len();
        let n = bytes.len().min(self.at_a_time).min(room);
        if n == 0 {
            return self.error.map_or(Ok(0), |kind| Err(Error::from(kind)));
        }
        self.taken.extend(&bytes[..n]);
        Ok(n)
    }

    fn flush(&mut self) -> Result<()> {
        Ok(())
    }
}

#[test]
fn a_failure_at_every_byte_loses_nothing() {
    const WRITES: usize = 12;
    let (expected, save) = records(WRITES);
    for (error, mbc_type) in [Some(ErrorKind::StorageFull), None].into_iter().flat_map(|error| MAPPERS.map(|mbc_type| (error, mbc_type))) {
        for at_a_time in [1, 2, 3, 4, 5, 7, 1000] {
            // Within the mark too.
            for limit in 0..=expected.len() {
                let mut memory = bus_of(mbc_type, WRITES * RECORD_LEN);
                let mut journal = Journal::new(Bad { taken: vec![], at_a_time, limit: Cell::new(limit), error, interrupted: false });
                let mut failed = false;
                for i in 0..WRITES {
                    let (at, value) = game(i);
                    write(&mut memory, &[(0xA000 + at, value)]);
                    if i % 4 != 3 {
                        continue;
                    }
                    // The file fills up; a write behind that is not lost; then there is room again.
                    let answer = journal.keep(&mut memory);
                    let full = len_of(i + 1) > journal.get_ref().limit.get();
                    assert_eq!(answer.as_ref().map_err(Error::kind).err(), full.then_some(error.unwrap_or(ErrorKind::WriteZero)));
                    assert!(journal.get_ref().taken == expected[..journal.get_ref().taken.len()]);
                    if full {
                        assert_eq!(journal.get_ref().taken.len(), limit);
                        // Not cleared: the log still has what was not taken.
                        assert!(!failed && memory.log().ends_with(&expected[limit.max(MARK.len())..len_of(i + 1)]));
                        failed = true;
                        assert!(journal.drain(&mut memory).is_err() && journal.get_ref().taken.len() == limit);
                        journal.get_ref().limit.set(usize::MAX);
                        journal.keep(&mut memory).unwrap();
                    }
                    assert!(journal.get_ref().taken == expected[..len_of(i + 1)]);
                }
                assert_eq!(failed, limit < expected.len());
                assert!(recovered(&journal.get_ref().taken) == save);
            }
        }
    }
}

/// A file fails at each byte for good. Another begins with its mark and the record of which the first has a part, or nothing; both, one after the other, give
/// the save. So does the same file emptied, over the save of that moment.
#[test]
fn another_journal_after_a_failure() {
    const WRITES: usize = 8;
    let (expected, after) = records(WRITES);
    for limit in 0..expected.len() {
        for at_a_time in [1, 1000] {
            let mut memory = bus(LONGEST_LOG);
            let bad = Bad { taken: vec![], at_a_time, limit: Cell::new(limit), error: Some(ErrorKind::StorageFull), interrupted: false };
            let mut first = Journal::new(bad);
            (0..WRITES).for_each(|i| write(&mut memory, &[(0xA000 + game(i).0, game(i).1)]));
            first.keep(&mut memory).unwrap_err();
            let mut other = memory.clone();

            let mut second = Journal::new(Vec::new());
            second.keep(&mut memory).unwrap();
            assert!(*second.get_ref() == [&MARK[..], &expected[len_of(whole(limit)).max(MARK.len())..]].concat(), "{limit}");
            let mut save = recovered(&first.get_ref().taken);
            assert!(save == records(whole(limit)).1);
            recover_journal(&mut save, second.get_ref()).unwrap();
            assert!(save == after, "{limit}");

            let mut save = other.save().to_vec();
            first.get_ref().limit.set(usize::MAX);
            first
                .clear_by(|bad| {
                    bad.taken.clear();
                    Ok(())
                })
                .unwrap();
            first.keep(&mut other).unwrap();
            assert!(first.get_ref().taken == *second.get_ref());
            recover_journal(&mut save, &first.get_ref().taken).unwrap();
            assert!(save == after);
        }
    }
}

/// Says that it took more than it was given.
struct Boasting(Vec<u8>);

impl Write for Boasting {
    fn write(&mut self, bytes: &[u8]) -> Result<usize> {
        self.0.extend(bytes);
        Ok(bytes.len() + 5)
    }

    fn flush(&mut self) -> Result<()> {
        Ok(())
    }
}

/// Its flush fails for a while.
struct Unflushed {
    taken: Vec<u8>,
    failures: usize,
}

impl Write for Unflushed {
    fn write(&mut self, bytes: &[u8]) -> Result<usize> {
        self.taken.write(bytes)
    }

    fn flush(&mut self) -> Result<()> {
        if self.failures > 0 {
            self.failures -= 1;
            return Err(Error::from(ErrorKind::Other));
        }
        Ok(())
    }
}

#[test]
fn writers_of_other_kinds() {
    let (expected, _) = records(20);
    let (mut memory, mut journal) = (bus(4 * RECORD_LEN), Journal::new(Boasting(vec![])));
    (0..20).for_each(|i| play(&mut memory, &mut journal, i));
    journal.keep(&mut memory).unwrap();
    assert!(journal.get_ref().0 == expected);

    // A writer with a buffer is flushed.
    let (mut memory, mut journal) = (bus(4 * RECORD_LEN), Journal::new(BufWriter::new(Vec::new())));
    (0..20).for_each(|i| play(&mut memory, &mut journal, i));
    journal.keep(&mut memory).unwrap();
    assert!(*journal.get_ref().get_ref() == expected);

    // What is not flushed is not cleared, and not written again.
    let (mut memory, mut journal) = (bus(4 * RECORD_LEN), Journal::new(Unflushed { taken: vec![], failures: 2 }));
    (0..4).for_each(|i| write(&mut memory, &[(0xA000 + game(i).0, game(i).1)]));
    assert!(journal.keep(&mut memory).is_err() && journal.drain(&mut memory).is_err());
    assert_eq!(memory.log(), &expected[MARK.len()..len_of(4)]);
    journal.keep(&mut memory).unwrap();
    assert!(memory.log().is_empty() && journal.get_ref().taken == expected[..len_of(4)]);
}

/// Recovery from the first n bytes and zeros for the rest, as a failing machine may leave a journal, gives the writes whose records are whole in them.
/// Two cases no one can tell from the bytes: a last one that ends in 0 is as a torn one, and does not count; and where the tear is within the journal's very
/// last record, that one is as a record that ends in 0, and counts.
#[test]
fn torn_at_every_byte() {
    const WRITES: usize = 60;
    let (journal, _) = records(WRITES);
    for n in 0..=journal.len() {
        let whole = whole(n);
        // Cut: nothing stands behind, and nothing is doubtful. Of a mark that is cut nothing is missed.
        assert!(recovered(&journal[..n]) == records(whole).1, "{n}");
        let doubtful = n % RECORD_LEN == 0 && n > 0 && n < journal.len() && journal[n - 1] == 0;
        let last = n > journal.len() - RECORD_LEN;
        let mut torn = journal.clone();
        torn[n..].fill(0);
        assert_eq!(journal_len(&torn), c_rule(&torn));
        let mut save = vec![0; SAVE_LEN];
        let played = recover_journal(&mut save, &torn).unwrap();
        assert_eq!(played, if last { WRITES } else { whole - usize::from(doubtful) }, "{n}");
        assert!(last || save == records(played).1, "{n}");
    }
    // One in four ends in 0.
    assert_eq!((0..WRITES).filter(|i| record(0, game(*i).1)[3] == 0).count(), WRITES / 4);
}

/// A journal of which so much of the mark arrived, and then zeros or nothing, has no record; one with anything else there is none.
#[test]
fn torn_marks() {
    let begins = |journal: &[u8]| {
        let mut save = vec![0x11; SAVE_LEN];
        let answer = recover_journal(&mut save, journal);
        assert!(answer == Ok(1) || save.iter().all(|byte| *byte == 0x11));
        answer
    };
    for arrived in 0..=MARK.len() {
        assert_eq!(begins(&MARK[..arrived]), Ok(0));
        for zeros in 1..=20 {
            assert_eq!(begins(&[&MARK[..arrived], &vec![0; zeros]].concat()), Ok(0), "{arrived} {zeros}");
        }
        // Any other byte behind what arrived.
        for other in (1..=0xFF).filter(|byte| MARK.get(arrived) != Some(byte)) {
            let journal = [&MARK[..arrived], &[other]].concat();
            assert_eq!(begins(&journal), if arrived < MARK.len() { Err(Refusal::Unmarked) } else { Ok(0) });
        }
    }
    // Every bit of it, before a record.
    for bit in 0..32 {
        let mut journal = [MARK, record(0, 0x22)].concat();
        journal[bit / 8] ^= 0x80 >> (bit % 8);
        assert_eq!(begins(&journal), Err(Refusal::Unmarked));
    }
    assert_eq!(begins(&[MARK, record(0, 0x22)].concat()), Ok(1));
    // Records, and no mark, as those of a log.
    assert_eq!(begins(&record(0, 0x22)), Err(Refusal::Unmarked));
    // A second mark is a damaged record.
    let damaged = Damaged { record: 0, bytes: RecordBytes::New(MARK) };
    assert_eq!(begins(&[MARK, MARK, record(0, 0x22)].concat()), Err(Refusal::Damaged(damaged)));

    let words = "the journal does not begin with the mark of version 3, 50 4C 34 0A; if an older version wrote it: recover_old_journal";
    assert_eq!((Refusal::Unmarked.number(), Refusal::Unmarked.to_string().as_str()), (6, words));
}

/// pouch_journal_len of c/pouch_bus.h, word by word.
#[allow(clippy::manual_div_ceil)]
fn c_rule(journal: &[u8]) -> usize {
    let len = journal.len();
    let mut end = len;
    while end > 0 && journal[end - 1] == 0 {
        end -= 1;
    }
    let next = (end + RECORD_LEN - 1) / RECORD_LEN * RECORD_LEN;
    if next < len {
        end / RECORD_LEN * RECORD_LEN
    } else {
        len
    }
}

/// c/pouch_bus.h, with single blanks.
fn header() -> String {
    let header = fs::read_to_string(concat!(env!("CARGO_MANIFEST_DIR"), "/../c/pouch_bus.h")).unwrap();
    header.split_whitespace().collect::<Vec<_>>().join(" ")
}

/// It has these words.
fn in_header(words: &str) {
    assert!(header().contains(words), "c/pouch_bus.h has another rule now: {words}");
}

/// pouch_journal_marked of c/pouch_bus.h, word by word, and what pouch_bus_recover does with it: how many records, or `None` for 6.
fn c_marked(journal: &[u8]) -> Option<usize> {
    let (mut at, end) = (0, if journal.len() < 4 { journal.len() } else { 4 });
    while at < end && journal[at] == b"PL4\n"[at] {
        at += 1;
    }
    while at < end && journal[at] == 0 {
        at += 1;
    }
    let len = c_rule(journal);
    (at == end).then_some(if len > 4 { (len - 4) / 4 } else { 0 })
}

#[test]
fn the_mark_is_cs() {
    in_header("#define POUCH_JOURNAL_MARK \"PL4\\n\" #define POUCH_JOURNAL_MARK_LEN 4");
    in_header(
        "size_t at = 0, end = len < POUCH_JOURNAL_MARK_LEN ? len : POUCH_JOURNAL_MARK_LEN; \
        while (at < end && journal[at] == POUCH_JOURNAL_MARK[at]) at++; while (at < end && journal[at] == 0) at++; return at == end;",
    );
    // It looks for the mark before it cuts zeros off.
    let header = header();
    let recover = header.split_once("pouch_bus_recover(uint8_t").unwrap().1;
    let place = |words: &str| recover.find(words).expect(words);
    assert!(place("pouch_journal_marked(journal, journal_len)") < place("= pouch_journal_len(journal, journal_len);"));
    // Every journal of up to 6 bytes of these, and a record behind each.
    let bytes = [0x00, 0x50, 0x4C, 0x34, 0x0A, 0x80];
    for len in 0..=6 {
        for list in 0..bytes.len().pow(len) {
            let mut journal: Vec<u8> = (0..len).map(|place| bytes[list / bytes.len().pow(place) % bytes.len()]).collect();
            for _ in 0..2 {
                let answer = recover_journal(&mut [0; 512], &journal);
                match c_marked(&journal) {
                    Some(records) => assert!(answer == Ok(records) || matches!(answer, Err(Refusal::Damaged(_))), "{journal:02X?}"),
                    None => assert_eq!(answer, Err(Refusal::Unmarked), "{journal:02X?}"),
                }
                journal.extend(record(0, 0x01));
            }
        }
    }
}

#[test]
fn the_zero_tail_is_cs() {
    in_header(
        "size_t end = len; while (end > 0 && journal[end - 1] == 0) end--; \
        size_t next = (end + record_len - 1) / record_len * record_len; \
        return next < len ? end / record_len * record_len : len;",
    );
    in_header("return pouch_journal_len_by(journal, len, POUCH_RECORD_LEN);");

    // Every journal of up to 11 bytes, of which each is 0 or not.
    for len in 0..=11 {
        for bits in 0..1u32 << len {
            let journal: Vec<u8> = (0..len).map(|k| if bits >> k & 1 == 1 { 0x80 } else { 0 }).collect();
            assert_eq!(journal_len(&journal), c_rule(&journal), "{journal:02X?}");
        }
    }
}

#[test]
fn a_damaged_record_of_any_part() {
    let most = LONGEST_LOG / RECORD_LEN;
    let (good, after) = records(2 * most + 100);
    for number in [0, 1, most - 1, most, most + 1, 2 * most - 1, 2 * most, 2 * most + 99] {
        for bytes in [[0x00, 0x01, 0xFF, 0x40], [0x80, 0x00, 0x03, 0xC1], record(SAVE_LEN, 0x0F)] {
            let mut journal = good.clone();
            // A later one is not told; numbers are from behind the mark.
            journal[len_of(2 * most + 99)] = 0x7F;
            journal[MARK.len() + number * RECORD_LEN..][..RECORD_LEN].copy_from_slice(&bytes);
            let mut save = vec![0x11; SAVE_LEN];
            assert_eq!(recover_journal(&mut save, &journal), Err(Refusal::Damaged(Damaged { record: number, bytes: RecordBytes::New(bytes) })));
            assert!(save.iter().all(|byte| *byte == 0x11), "{number}");
        }
    }
    let mut save = vec![0; SAVE_LEN];
    assert_eq!(recover_journal(&mut save, &good), Ok(2 * most + 100));
    assert!(save == after);
    // The same journal over the new save changes nothing: a session may end between the save's file and the journal's.
    assert_eq!(recover_journal(&mut save, &good), Ok(2 * most + 100));
    assert!(save == after);

    let words = "record 16,384 is damaged: 00 01 FF 40";
    let mut journal = good;
    journal[len_of(most + 1)..][..RECORD_LEN].copy_from_slice(&[0x00, 0x01, 0xFF, 0x40]);
    assert_eq!(recover_journal(&mut save, &journal).unwrap_err().to_string(), words);
}

#[test]
fn saves_of_no_cartridge() {
    for found in [1, 511, 8191, 8193, 32769, 131_071, 131_073] {
        // Before anything of the journal is told.
        for journal in [&[][..], &MARK, &[0x80, 0x00, 0x01], &[0, 0, 0], &[MARK, [0x7F; 4]].concat()] {
            let wrong = WrongLength { memory: Which::Save, found, expected: Expected::AnySave };
            assert_eq!(recover_journal(&mut vec![0; found], journal), Err(Refusal::WrongLength(wrong)));
        }
    }
}

#[test]
fn in_a_file() {
    let path = std::env::temp_dir().join(format!("pouchrattle-journal-{}", std::process::id()));
    let _ = fs::remove_file(&path);
    let (expected, save) = records(100);
    let (mut memory, mut journal) = (bus(96), Journal::open(&path).unwrap());
    (0..100).for_each(|i| play(&mut memory, &mut journal, i));
    journal.keep(&mut memory).unwrap();
    journal.sync().unwrap();
    drop(journal);
    let bytes = fs::read(&path).unwrap();
    assert!(bytes == expected && recovered(&bytes) == save);

    // One that holds a byte is not gone on with: the record that a kill cut would misplace all others.
    for len in [300, 4, 1] {
        OpenOptions::new().write(true).open(&path).unwrap().set_len(len).unwrap();
        assert_eq!(Journal::open(&path).unwrap_err().kind(), ErrorKind::AlreadyExists);
        assert_eq!(fs::metadata(&path).unwrap().len(), len);
    }
    OpenOptions::new().write(true).open(&path).unwrap().set_len(0).unwrap();
    let mut journal = Journal::open(&path).unwrap();
    play(&mut memory, &mut journal, 100);
    journal.keep(&mut memory).unwrap();
    assert!(fs::read(&path).unwrap() == [&MARK[..], &records(101).0[len_of(100)..]].concat());
    // Emptied by the journal itself, it goes on from there: it appends, behind the mark.
    journal.clear().unwrap();
    assert_eq!(fs::metadata(&path).unwrap().len(), 0);
    play(&mut memory, &mut journal, 101);
    journal.keep(&mut memory).unwrap();
    assert!(fs::read(&path).unwrap() == [&MARK[..], &records(102).0[len_of(101)..]].concat());
    // And so where the host has cut it behind the journal's back.
    for i in 102..104 {
        journal.get_ref().set_len(0).unwrap();
        journal.keep(&mut memory).unwrap();
        assert_eq!(fs::metadata(&path).unwrap().len(), 0);
        play(&mut memory, &mut journal, i);
        journal.keep(&mut memory).unwrap();
        assert!(fs::read(&path).unwrap() == [&MARK[..], &records(i + 1).0[len_of(i)..]].concat());
    }
    fs::remove_file(&path).unwrap();
    assert_eq!(Journal::open(path.join("none")).unwrap_err().kind(), ErrorKind::NotFound);

    // A full disk, and then another that takes what that one did not.
    let mut memory = bus(32 * RECORD_LEN);
    (0..32).for_each(|i| write(&mut memory, &[(0xA000 + game(i).0, game(i).1)]));
    let full = Journal::open("/dev/full").unwrap().keep(&mut memory);
    assert_eq!(full.unwrap_err().kind(), ErrorKind::StorageFull);
    let mut journal = Journal::new(Vec::new());
    journal.keep(&mut memory).unwrap();
    assert!(journal.into_inner() == records(32).0);
}
