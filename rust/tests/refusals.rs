//! Every refusal that the safe API can meet, and that it leaves the bus as it was.

mod common;

use common::{bus, cartridge, colour, monochrome, record, with_save, write};
use pouchrattle::{
    log_to_new, log_to_old, recover, Cartridge, Expected, MbcType, Memory, OutOfRange, Refusal, Timer, Which, WrongLength, IMAGE_LEN, LONGEST_LOG, RECORD_LEN,
};

/// A fresh bus over a save of so many bytes: its refusal, if any.
fn built(mbc_type: MbcType, banks: usize, ram_size: u8, save: usize) -> Option<Refusal> {
    Memory::new(Cartridge { rom: vec![0; banks * 16384], mbc_type, ram_size }, false, &vec![0; save]).err()
}

#[test]
fn descriptions_out_of_range() {
    use MbcType::*;
    for (mbc_type, most) in [(RomOnly, 2), (Mbc1, 128), (Mbc2, 16), (Mbc5, 512)] {
        let save = cartridge(mbc_type, 0, 0).save_len();
        for banks in (0..=18).chain([31, 32, 64, 127, 128, 129, 255, 256, 257, 384, 511, 512, 513, 1024usize]) {
            let wrong = banks < 2 || banks > most || !banks.is_power_of_two();
            let expected = wrong.then_some(Refusal::OutOfRange(OutOfRange::Rom { mbc_type, found: banks * 16384 }));
            assert_eq!(built(mbc_type, banks, 0, save), expected, "{mbc_type:?} {banks}");
        }
    }
    for code in 0..=255 {
        for (mbc_type, banks, codes) in
            [(RomOnly, 2, &[0, 2, 3][..]), (Mbc1, 2, &[0, 2, 3]), (Mbc2, 2, &[0]), (Mbc5, 2, &[0, 2, 3, 4]), (Mbc5, 512, &[0, 2, 3, 4])]
        {
            let save = cartridge(mbc_type, 0, code).save_len();
            let expected = (!codes.contains(&code)).then_some(Refusal::OutOfRange(OutOfRange::RamSize { mbc_type, found: code }));
            assert_eq!(built(mbc_type, banks, code, save), expected, "{mbc_type:?} {code}");
        }
    }
}

fn wrong(memory: Which, found: usize, expected: Expected) -> Refusal {
    Refusal::WrongLength(WrongLength { memory, found, expected })
}

#[test]
fn wrong_lengths() {
    use MbcType::*;
    let with_mbc5 = [(Mbc5, 0, 0), (Mbc5, 2, 8192), (Mbc5, 3, 32768), (Mbc5, 4, 131_072)];
    let lengths = [(RomOnly, 0, 0), (RomOnly, 2, 8192), (Mbc1, 2, 8192), (Mbc1, 3, 32768), (Mbc2, 0, 512)].into_iter().chain(with_mbc5);
    for (mbc_type, code, right) in lengths {
        for save in [0, 1, 511, 512, 513, 8191, 8192, 8193, 32767, 32768, 32769, 65536, 131_071, 131_072, 131_073] {
            let expected = (save != right).then_some(wrong(Which::Save, save, Expected::Exactly(right)));
            assert_eq!(built(mbc_type, 2, code, save), expected, "{mbc_type:?} {save}");
        }
    }
    // The last byte of a bank is missing, or one is too many.
    let rom = |found| wrong(Which::Rom, found, Expected::Exactly(32768));
    let few = Refusal::OutOfRange(OutOfRange::Rom { mbc_type: RomOnly, found: 32767 });
    for (length, refusal) in [(32767, few), (32769, rom(32769)), (49151, rom(49151))] {
        let mut cartridge = cartridge(RomOnly, 0, 0);
        cartridge.rom = vec![0; length];
        assert_eq!(Memory::new(cartridge, false, &[]).err(), Some(refusal), "{length}");
    }
    // As many banks as there can be, and a byte more.
    let long = Cartridge { rom: vec![0; 8_388_609], mbc_type: Mbc5, ram_size: 0 };
    assert_eq!(Memory::new(long, false, &[]).err(), Some(wrong(Which::Rom, 8_388_609, Expected::Exactly(8_388_608))));
    let log = |found| Some(wrong(Which::Log, found, Expected::AtMost(LONGEST_LOG)));
    for (length, refusal) in [(0, None), (LONGEST_LOG, None), (LONGEST_LOG + 1, log(LONGEST_LOG + 1)), (usize::MAX, log(usize::MAX))] {
        assert_eq!(Memory::with_log(cartridge(RomOnly, 2, 0), false, &[], length).err(), refusal, "{length}");
    }
}

/// A refusal's words, and the number that C has for it.
fn says(refusal: Option<Refusal>, number: u8, words: &str) {
    let refusal = refusal.expect("a refusal");
    assert_eq!((refusal.number(), refusal.to_string().as_str()), (number, words));
}

#[test]
fn words() {
    use MbcType::*;
    says(built(Mbc1, 3, 0, 0), 3, "the ROM has 49,152 bytes, and Mbc1 takes 2, 4, 8, 16, 32, 64 or 128 banks of 16,384");
    says(built(RomOnly, 4, 0, 0), 3, "the ROM has 65,536 bytes, and RomOnly takes 2 banks of 16,384");
    says(built(Mbc2, 0, 0, 512), 3, "the ROM has 0 bytes, and Mbc2 takes 2, 4, 8 or 16 banks of 16,384");
    says(built(Mbc5, 1024, 0, 0), 3, "the ROM has 16,777,216 bytes, and Mbc5 takes 2, 4, 8, 16, 32, 64, 128, 256 or 512 banks of 16,384");
    says(built(Mbc1, 2, 5, 0), 3, "the RAM code is 5, and Mbc1 takes 0, 2 or 3");
    says(built(Mbc5, 512, 5, 65536), 3, "the RAM code is 5, and Mbc5 takes 0, 2, 3 or 4");
    says(built(Mbc1, 128, 4, 131_072), 3, "the RAM code is 4, and Mbc1 takes 0, 2 or 3");
    says(built(RomOnly, 2, 4, 131_072), 3, "the RAM code is 4, and RomOnly takes 0, 2 or 3");
    says(built(Mbc2, 2, 4, 512), 3, "the RAM code is 4, and Mbc2 takes 0");
    says(built(Mbc2, 2, 2, 512), 3, "the RAM code is 2, and Mbc2 takes 0");
    says(built(Mbc1, 2, 3, 8192), 4, "the save has 8,192 bytes, and must have 32,768");
    says(built(Mbc1, 2, 2, 8191), 4, "the save has 8,191 bytes, and must have 8,192");
    says(built(Mbc2, 2, 0, 32768), 4, "the save has 32,768 bytes, and must have 512");
    says(built(Mbc5, 512, 3, 8192), 4, "the save has 8,192 bytes, and must have 32,768");
    says(built(Mbc5, 512, 4, 32768), 4, "the save has 32,768 bytes, and must have 131,072");
    says(Memory::with_log(cartridge(RomOnly, 2, 0), false, &[], 1_000_000).err(), 4, "the log has 1,000,000 bytes, and must have at most 65,535");
    says(recover(&mut [0; 513], &[]).err(), 4, "the save has 513 bytes, and must have 0, 512, 8,192, 32,768 or 131,072");
    says(recover(&mut [0; 512], &record(512, 0x0F)).err(), 6, "record 0 is damaged: 80 80 03 C0");
    says(log_to_new(&[0x80, 0x00, 0x0F, 0x7F, 0xFF, 0x01]).err(), 6, "record 1 is damaged: 7F FF 01");
    says(log_to_new(&[0; 49152]).err(), 4, "the log has 49,152 bytes, and must have at most 49,151");
    says(log_to_old(&[0x80, 0x00, 0x00, 0x01]).err(), 6, "record 0 is damaged: 80 00 00 01");
    says(log_to_old(&[0; 65536]).err(), 4, "the log has 65,536 bytes, and must have at most 65,535");
    let mut memory = monochrome();
    says(memory.read_block(0, &mut vec![0; 70_000]).err(), 4, "the block has 70,000 bytes, and must have at most 65,536");
    says(memory.set_image(&[0; IMAGE_LEN]).err(), 3, "the image holds no state of a bus");
    says(memory.set_image(colour().image()).err(), 4, "the video memory has 8,192 bytes, and must have 16,384");
    says(memory.update_timer(65537).err(), 5, "more than 65,536 cycles in one update");
    says(memory.load(0).err(), 7, "an index below FF00, or a bank or an index outside video memory");
    let mut full = Memory::with_log(cartridge(RomOnly, 2, 2), false, &[0; 8192], 0).unwrap();
    says(full.write_byte(0xA000, 0).err(), 2, "the log has no room for this write: keep it, and write again");
}

#[test]
fn indices_and_banks_outside() {
    for (mut memory, banks) in [(monochrome(), 1), (colour(), 2)] {
        let before = memory.clone();
        for index in [0x0000, 0x8000, 0xFEFF] {
            assert_eq!(memory.load(index), Err(Refusal::Outside));
            assert_eq!(memory.store(index, 1), Err(Refusal::Outside));
        }
        for bank in [i32::MIN, -1, 0, 1, 2, 255, 256, i32::MAX] {
            let expected = if (0..banks).contains(&bank) { Ok(0) } else { Err(Refusal::Outside) };
            assert_eq!(memory.read_cgb_lcd_ram(0x8000, bank), expected, "{bank}");
        }
        for index in [0x0000, 0x7FFF, 0xA000, 0xFFFF] {
            assert_eq!(memory.read_cgb_lcd_ram(index, 0), Err(Refusal::Outside));
        }
        assert!(memory == before);
    }
}

#[test]
fn cycles() {
    let mut memory = monochrome();
    let before = memory.clone();
    for cycles in [65537, i32::MAX, -1, i32::MIN] {
        assert_eq!(Timer::new().update(cycles, &mut memory), Err(Refusal::TooManyCycles), "{cycles}");
    }
    assert!(memory == before);
    assert_eq!(Timer::new().update(65536, &mut memory), Ok(()));
    assert!(memory == before);
}

#[test]
fn full_log() {
    for (mbc_type, banks, code) in [(MbcType::Mbc1, 2, 2), (MbcType::Mbc5, 2, 2), (MbcType::Mbc5, 512, 2), (MbcType::Mbc5, 2, 4), (MbcType::Mbc5, 512, 4)] {
        no_room(cartridge(mbc_type, banks, code));
    }
}

fn no_room(cartridge: Cartridge) {
    let save = vec![0; cartridge.save_len()];
    let mut memory = Memory::with_log(cartridge, false, &save, 3 * RECORD_LEN - 1).unwrap();
    write(&mut memory, &[(0x0000, 0x0A), (0xA000, 1)]);
    let before = memory.clone();
    for index in [0x9FFF, 0xA000, 0xBFFF] {
        assert_eq!(memory.write_word(index, 0x0202), Err(Refusal::NoRoom));
    }
    assert!(memory == before);

    write(&mut memory, &[(0xBFFF, 2)]);
    let before = memory.clone();
    for index in [0xA000, 0xBFFF] {
        assert_eq!(memory.write_byte(index, 3), Err(Refusal::NoRoom));
    }
    assert!(memory == before);
    write(&mut memory, &[(0x9FFF, 3), (0xC000, 3)]);
    assert_eq!(memory.take_log(), [record(0, 1), record(0x1FFF, 2)].concat());
    write(&mut memory, &[(0xA000, 3)]);
    assert_eq!(memory.save()[0], 3);
}

#[test]
fn images() {
    let mut memory = with_save(false);
    write(&mut memory, &[(0xA000, 7)]);
    let before = memory.clone();
    let no_state = Err(Refusal::OutOfRange(OutOfRange::Image));
    assert_eq!(memory.set_image(&[0; IMAGE_LEN]), no_state);
    // The last three bits.
    for bit in 0..3 {
        let mut image = *memory.image();
        image[IMAGE_LEN - 1] |= 1 << bit;
        assert_eq!(memory.set_image(&image), no_state);
    }
    // Of another cartridge: which memory it would need, how long.
    for (other, which, found, expected) in [
        (with_save(true), Which::Vram, 8192, 16384),
        (bus(MbcType::Mbc1, 4, 2, false), Which::Rom, 32768, 65536),
        (bus(MbcType::Mbc1, 128, 2, false), Which::Rom, 32768, 2_097_152),
        (bus(MbcType::Mbc1, 2, 3, false), Which::Save, 8192, 32768),
        (bus(MbcType::Mbc1, 2, 0, false), Which::Save, 8192, 0),
        (bus(MbcType::Mbc2, 2, 0, false), Which::Save, 8192, 512),
        (bus(MbcType::Mbc5, 256, 2, false), Which::Rom, 32768, 4_194_304),
        (bus(MbcType::Mbc5, 512, 2, true), Which::Rom, 32768, 8_388_608),
        (bus(MbcType::Mbc5, 2, 2, true), Which::Vram, 8192, 16384),
        (bus(MbcType::Mbc5, 2, 3, false), Which::Save, 8192, 32768),
        (bus(MbcType::Mbc5, 2, 4, false), Which::Save, 8192, 131_072),
        (bus(MbcType::Mbc5, 2, 0, false), Which::Save, 8192, 0),
    ] {
        assert_eq!(memory.set_image(other.image()), Err(wrong(which, found, Expected::Exactly(expected))));
    }
    assert!(memory == before);
    assert_eq!(memory.set_image(before.image()), Ok(()));
    assert!(memory == before);
}
