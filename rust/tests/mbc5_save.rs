//! MBC5: the save and its log after lists of writes, and recovery, beside the model of common/mbc5.rs.

mod common;
#[path = "common/mbc5.rs"]
mod model;

use model::{cartridges, Both, Random, ROM_BANKS};
use pouchrattle::{recover, recover_journal, Journal, JOURNAL_MARK, RECORD_LEN};

/// The records of a log: address and value of each.
fn records(log: &[u8]) -> Vec<(usize, u8)> {
    let record = |bytes: &[u8]| {
        let number = u32::from_be_bytes(bytes.try_into().unwrap());
        assert!(number >> 31 == 1 && number & 0x3F == 0, "{bytes:02X?}");
        (number as usize >> 14 & 0x1FFFF, (number >> 6) as u8)
    };
    log.chunks(4).map(record).collect()
}

/// List after list: each finds the registers as the one before has left them.
#[test]
fn each_stored_byte_is_a_record() {
    for (banks, code) in cartridges() {
        let (mut both, mut random) = (Both::new(banks, code, false), Random(u64::from(code) + 100));
        for list in 0..40 {
            for _ in 0..random.below(1000) {
                let (index, value) = random.write();
                both.write(index, value);
            }
            assert_eq!(records(both.memory.log()), both.model.stored, "list {list} of {banks} banks");
            assert!(both.memory.save() == both.model.save, "list {list} of {banks} banks");
            both.model.stored.clear();
            drop(both.memory.take_log());
        }
    }
}

/// Cut at each byte, the log gives the save after as many stored bytes as it has whole records.
#[test]
fn recovery_over_each_prefix() {
    for (banks, code) in cartridges() {
        let (mut both, mut random) = (Both::new(banks, code, false), Random(u64::from(code) + 200));
        let start = both.model.save.clone();
        let mut saves = vec![start.clone()];
        for _ in 0..1200 {
            let (index, value) = random.write();
            both.write(index, value);
            if saves.len() <= both.model.stored.len() {
                saves.push(both.model.save.clone());
            }
        }
        let log = both.memory.log();
        assert!(if code == 0 { log.is_empty() } else { log.len() > 200 * RECORD_LEN });
        assert_eq!(records(log), both.model.stored);
        for cut in 0..=log.len() {
            let mut save = start.clone();
            recover(&mut save, &log[..cut]).unwrap();
            assert!(save == saves[cut / RECORD_LEN], "{cut} of {banks} banks, code {code}");
        }
    }
}

/// RAM banks up to the last byte of the last, whatever ROM there is.
#[test]
fn all_ram_banks() {
    for (banks, (code, ram_banks)) in ROM_BANKS.into_iter().flat_map(|banks| [(3, 4), (4, 16)].map(|of| (banks, of))) {
        let mut both = Both::new(banks, code, false);
        let start = both.model.save.clone();
        both.write(0x0000, 0x0A);
        let mut kept = Vec::new();
        for bank in (0..ram_banks).rev() {
            both.write(0x4000, bank);
            // The log holds the 8,192 records of one bank, and nearly those of two.
            (0..0x1FFF).for_each(|at| both.write(0xA000 + at, at as u8 ^ bank));
            both.write(0xBFFF, 0xE0 + bank);
            kept.push(both.memory.take_log());
        }
        assert!(records(&kept.concat()) == both.model.stored && kept.concat().len() == both.model.save.len() * 4);
        assert!(both.memory.save() == both.model.save);
        let ends: Vec<u8> = both.memory.save().chunks(0x2000).map(|bank| bank[0x1FFF]).collect();
        assert_eq!(ends, (0xE0..0xE0 + ram_banks).collect::<Vec<_>>());
        // And recovery gives every byte of it.
        let mut save = start;
        kept.iter().for_each(|log| recover(&mut save, log).unwrap());
        assert!(save == both.model.save);
    }
}

/// Byte and word writes on logs that fill up: what is refused changes nothing, and done again on a log that was taken off it is the same write.
#[test]
fn a_full_log() {
    for (log, (banks, code)) in
        [0, 3, 4, 7, 8, 11, 40, 41, 43].into_iter().flat_map(|log| [(2, 0), (2, 2), (8, 3), (512, 3), (2, 4), (512, 4)].map(|of| (log, of)))
    {
        let (mut both, mut random) = (Both::with_log(banks, code, false, log), Random(log as u64));
        let start = both.model.save.clone();
        let mut kept = Vec::new();
        for _ in 0..600 {
            let (index, byte) = random.write();
            // A word at an end reaches into the next window; FFFF is followed by 0000.
            let index = random.pick(&[index, index, index, 0x9FFF, 0xFFFF]);
            let (value, is_word) = (u16::from_le_bytes([byte, random.below(256) as u8]), random.below(3) == 0);
            let before = (*both.memory.image(), both.memory.save().to_vec(), both.memory.log().to_vec());
            if !both.try_write(index, value, is_word) {
                assert!(before == (*both.memory.image(), both.memory.save().to_vec(), both.memory.log().to_vec()));
                kept.extend(both.memory.take_log());
                both.try_write(index, value, is_word);
            }
            both.alike();
        }
        kept.extend(both.memory.take_log());
        assert_eq!(records(&kept), both.model.stored);
        assert!(both.memory.save() == both.model.save);
        let mut save = start;
        recover(&mut save, &kept).unwrap();
        assert!(save == both.model.save);
        assert_eq!(both.model.stored.is_empty(), code == 0 || log < RECORD_LEN);
    }
}

#[test]
fn a_journal_of_all_banks() {
    for code in [3, 4] {
        let (mut both, mut random) = (Both::with_log(512, code, true, 300), Random(300));
        let start = both.model.save.clone();
        let mut journal = Journal::new(Vec::new());
        for _ in 0..60_000 {
            let (index, value) = random.write();
            if !both.try_write(index, u16::from(value), false) {
                journal.keep(&mut both.memory).unwrap();
                both.write(index, value);
            }
        }
        journal.keep(&mut both.memory).unwrap();
        assert!(*journal.get_ref() == [&JOURNAL_MARK[..], &both.model.log()].concat());
        let mut save = start;
        assert_eq!(recover_journal(&mut save, journal.get_ref()), Ok(both.model.stored.len()));
        assert!(save == both.memory.save() && save == both.model.save);
        // Every bank was written.
        let banks = both.model.ram_banks;
        assert!((0..banks).all(|bank| both.model.stored.iter().any(|(at, _)| at / 8192 == bank)));
    }
}
