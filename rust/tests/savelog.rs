//! The save, its log, and a session taken up again.

mod common;

use common::{cartridge, record, rom_byte, with_saves, write};
use pouchrattle::{recover, Cartridge, Damaged, Expected, MbcType, Memory, RecordBytes, Refusal, Timer, Which, WrongLength, LONGEST_LOG, RECORD_LEN};

#[test]
fn corner_12_record() {
    for mut memory in with_saves(false) {
        write(&mut memory, &[(0xB234, 0x56)]);
        assert_eq!(memory.log(), [0x84, 0x8D, 0x15, 0x80]);
        assert_eq!(memory.save()[0x1234], 0x56);
    }
}

#[test]
fn every_stored_byte_is_logged() {
    with_saves(false).for_each(every_stored_byte);
}

fn every_stored_byte(mut memory: Memory) {
    let start = memory.save().to_vec();
    let mut kept = Vec::new();
    for step in 0..50_000u32 {
        let index = 0xA000 + (step.wrapping_mul(2_654_435_761) >> 19) as u16;
        let value = (step % 251) as u8;
        if memory.write_byte(index, value) == Err(Refusal::NoRoom) {
            kept.push(memory.take_log());
            write(&mut memory, &[(index, value)]);
        }
        assert_eq!(memory.save()[usize::from(index) - 0xA000], value);
    }
    assert_eq!((kept.len(), kept[0].len()), (3, 16383 * 4));
    kept.push(memory.take_log());
    assert!(memory.log().is_empty());
    assert_eq!(kept.iter().map(Vec::len).sum::<usize>(), 50_000 * RECORD_LEN);

    let mut save = start;
    for log in &kept {
        recover(&mut save, log).unwrap();
    }
    assert!(save == memory.save());
}

#[test]
fn nothing_else_is_logged() {
    for mut memory in with_saves(false) {
        write(&mut memory, &[(0x9FFF, 1), (0xC000, 1), (0x0000, 0x00), (0xA000, 1)]);
        assert_eq!((memory.read_byte(0x9FFF), memory.read_byte(0xC000), memory.read_byte(0xA000)), (1, 1, 0xFF));
        assert!(memory.log().is_empty());
        assert!(memory.save().iter().all(|&byte| byte == 0x11));
    }
}

#[test]
fn a_cut_log_recovers_its_whole_records() {
    let log = [record(0, 0x56), record(511, 0x78)].concat();
    for cut in 0..=log.len() {
        let mut save = vec![0; 512];
        assert_eq!(recover(&mut save, &log[..cut]), Ok(()));
        assert_eq!((save[0], save[511]), (if cut < RECORD_LEN { 0 } else { 0x56 }, if cut < 2 * RECORD_LEN { 0 } else { 0x78 }));
    }
}

#[test]
fn a_damaged_log_changes_nothing() {
    // The first bit is 0; one of the last six is not; the address is not below 512.
    let [a, b, c, d] = record(0, 0xFF);
    let bits = (0..6).map(|bit| [a, b, c, d | 1 << bit]);
    for damaged in bits.chain([[a & 0x7F, b, c, d], record(512, 0xFF), record(131_071, 0x00)]) {
        let mut save = vec![0x11; 512];
        let log = [record(0, 0x56), damaged].concat();
        assert_eq!(recover(&mut save, &log), Err(Refusal::Damaged(Damaged { record: 1, bytes: RecordBytes::New(damaged) })));
        assert!(save.iter().all(|&byte| byte == 0x11));
        assert_eq!(recover(&mut save, &log[..2 * RECORD_LEN - 1]), Ok(()));
        assert_eq!(save[0], 0x56);
    }
}

#[test]
fn recovery_takes_the_lengths_of_saves() {
    let wrong = |memory, found, expected| Err(Refusal::WrongLength(WrongLength { memory, found, expected }));
    for length in [0, 1, 511, 512, 513, 8191, 8192, 8193, 16384, 32767, 32768, 32769, 65536, 131_071, 131_072, 131_073, 262_144] {
        let expected = if [0, 512, 8192, 32768, 131_072].contains(&length) { Ok(()) } else { wrong(Which::Save, length, Expected::AnySave) };
        assert_eq!(recover(&mut vec![0; length], &[]), expected, "{length}");
    }
    // 16,383 records, and 3 bytes that are none.
    let log = [0x80, 0x00, 0x00, 0x40].repeat(16384);
    assert_eq!(recover(&mut [0; 512], &log), wrong(Which::Log, LONGEST_LOG + 1, Expected::AtMost(LONGEST_LOG)));
    let mut save = [0; 512];
    assert_eq!(recover(&mut save, &log[..LONGEST_LOG]), Ok(()));
    assert_eq!(save[..2], [1, 0]);
}

#[test]
fn a_transfer_past_video_memory_leaves_the_save_alone() {
    for mut memory in with_saves(true) {
        for length in [0x01, 0x3F, 0x7F] {
            write(&mut memory, &[(0xFF51, 0x01), (0xFF52, 0x00), (0xFF53, 0x1F), (0xFF54, 0xF0), (0xFF55, length)]);
            assert!((0..16).all(|at| memory.read_byte(0x9FF0 + at) == rom_byte(0x100 + usize::from(at))));
            assert!(memory.save().iter().all(|&byte| byte == 0x11));
            assert!(memory.log().is_empty());
        }
        // A write of the game's own would have been stored.
        write(&mut memory, &[(0xA000, 0x22)]);
        assert_eq!((memory.save()[0], memory.log().len()), (0x22, RECORD_LEN));
    }
}

#[test]
fn a_session_is_taken_up_again() {
    for (mbc_type, banks, code) in [(MbcType::Mbc1, 8, 3), (MbcType::Mbc5, 2, 3), (MbcType::Mbc5, 8, 3), (MbcType::Mbc5, 512, 3), (MbcType::Mbc5, 512, 4)] {
        taken_up_again(&cartridge(mbc_type, banks, code));
    }
}

fn taken_up_again(cartridge: &Cartridge) {
    let mut memory = Memory::new(cartridge.clone(), true, &vec![0x11; cartridge.save_len()]).unwrap();
    // ROM bank 6, of 512 banks 262; RAM bank 3, of 16 banks 11.
    let bank = if cartridge.ram_size == 4 { 11 } else { 3 };
    write(&mut memory, &[(0x3000, 0x01), (0x2000, 0x06), (0x6000, 0x01), (0x4000, bank), (0x0000, 0x0A)]);
    write(&mut memory, &[(0xA000, 0x22), (0xC000, 0x33), (0xFF4F, 1), (0x8000, 0x44), (0xFF80, 0x55), (0xFF07, 0x05)]);
    Timer::new().update(1000, &mut memory).unwrap();
    assert_eq!(memory.save()[usize::from(bank) * 0x2000], 0x22);

    let mut again = Memory::new(cartridge.clone(), true, memory.save()).unwrap();
    again.set_image(memory.image()).unwrap();
    again.vram_mut().copy_from_slice(memory.vram());
    again.wram_mut().copy_from_slice(memory.wram());
    for index in 0..=0xFFFF {
        assert_eq!(again.read_byte(index), memory.read_byte(index), "{index:04X}");
    }

    // The log is not the state's: what is used of it stays, here none, there one record.
    assert!(again.log().is_empty());
    let log = memory.log().to_vec();
    memory.set_image(again.image()).unwrap();
    assert_eq!((memory.log(), log.len()), (&log[..], RECORD_LEN));
    assert!(memory.take_log() == log && memory.image() == again.image());
}
