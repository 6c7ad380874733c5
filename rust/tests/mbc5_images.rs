//! MBC5: its part of the image, as document 02 lays it out, and the ranges of its state.

mod common;
#[path = "common/mbc5.rs"]
mod model;

use common::bus;
use model::{cartridges, Both, Random, CODES, ROM_BANKS};
use pouchrattle::{version, Expected, Image, MbcType, OutOfRange, Refusal, Which, WrongLength, IMAGE_LEN};

/// A field: its first bit and its width, most significant bit first.
type Field = (usize, usize);

const MAPPER: Field = (5283, 2);
const LOG2_N: Field = (5285, 4);
const CODE: Field = (5289, 3);
const ROM: Field = (5292, 9);
const RAM: Field = (5301, 4);
const MODE: Field = (5305, 1);
const ENABLED: Field = (5306, 1);
const HIGH: Field = (5307, 2);
const USED: Field = (5309, 16);
const ZEROS: Field = (5325, 3);

fn get(image: &Image, (at, width): Field) -> usize {
    (at..at + width).fold(0, |value, bit| value * 2 + usize::from(image[bit / 8] >> (7 - bit % 8) & 1))
}

fn put(image: &mut Image, (at, width): Field, value: usize) {
    for bit in at..at + width {
        let mask = 0x80 >> (bit % 8);
        image[bit / 8] &= !mask;
        if value >> (at + width - 1 - bit) & 1 == 1 {
            image[bit / 8] |= mask;
        }
    }
}

fn with(image: &Image, fields: &[(Field, usize)]) -> Image {
    let mut image = *image;
    fields.iter().for_each(|&(field, value)| put(&mut image, field, value));
    image
}

const NO_STATE: Result<(), Refusal> = Err(Refusal::OutOfRange(OutOfRange::Image));

#[test]
fn lengths() {
    assert_eq!((IMAGE_LEN, version().image_len, ZEROS.0 + ZEROS.1), (666, 666, 8 * 666));
    // What a version before 2.0 has stored is no image.
    let both = Both::new(2, 0, false);
    assert!(Image::try_from(&both.memory.image()[..665]).is_err() && Image::try_from(&both.memory.image()[..]).is_ok());
}

/// The fields are the model's, after each write of a list; and an image goes into another bus as it came.
#[test]
fn fields() {
    for (banks, code) in cartridges() {
        let (mut both, mut random) = (Both::new(banks, code, false), Random(u64::from(code) + 400));
        let mut again = Both::new(banks, code, false);
        for _ in 0..500 {
            let model = &both.model;
            let fields = [MAPPER, LOG2_N, CODE, ROM, RAM, MODE, ENABLED, HIGH, USED, ZEROS].map(|field| get(both.memory.image(), field));
            let log2 = banks.ilog2() as usize;
            let expected = [3, log2, code.into(), model.bank(), model.ram_bank(), 0, model.is_on().into(), 0, 4 * model.stored.len(), 0];
            assert_eq!(fields, expected);
            again.memory.set_image(both.memory.image()).unwrap();
            assert!(again.memory.image() == &with(both.memory.image(), &[(USED, 0)]));
            assert_eq!(again.memory.read_word(0x4000), both.memory.read_word(0x4000));
            let (index, value) = random.write();
            both.write(index, value);
        }
    }
}

#[test]
fn a_rom_bank_is_below_n() {
    for (banks, code) in cartridges() {
        let mut both = Both::new(banks, code, false);
        let fresh = *both.memory.image();
        for bank in 0..512 {
            assert_eq!(both.memory.set_image(&with(&fresh, &[(ROM, bank)])), if bank < banks { Ok(()) } else { NO_STATE }, "{bank} of {banks}");
            if bank < banks {
                assert_eq!(usize::from(both.memory.read_word(0x4000)), bank);
            }
        }
    }
}

/// A RAM bank is below those present, 0 with none; and it is the one that a game sees.
#[test]
fn a_ram_bank_is_below_those_present() {
    for (code, banks) in CODES {
        let mut both = Both::new(8, code, false);
        let fresh = *both.memory.image();
        for (bank, enabled) in (0..16).flat_map(|bank| [(bank, 0), (bank, 1)]) {
            let is_taken = bank < banks || banks == 0 && (bank, enabled) == (0, 0);
            let image = with(&fresh, &[(RAM, bank), (ENABLED, enabled)]);
            assert_eq!(both.memory.set_image(&image), if is_taken { Ok(()) } else { NO_STATE }, "{bank} of {banks}");
            if is_taken {
                let expected = if enabled == 1 { both.model.save[bank * 8192 + 0x1FFF] } else { 0xFF };
                assert_eq!((both.memory.read_byte(0xBFFF), both.memory.image()), (expected, &image));
            }
        }
    }
}

/// Every value of every field but the ROM bank, which is at its limits: taken, or refused by 3, or of a cartridge of other lengths.
#[test]
fn ranges() {
    for (banks, code) in [(2, 0), (8, 2), (512, 3), (4, 4)] {
        let mut both = Both::new(banks, code, false);
        let fresh = *both.memory.image();
        let mut taken = 0;
        // The fields before the ROM bank and those behind it, seven bits and eight.
        for (before, behind) in (0..128).flat_map(|before| (0..256).map(move |behind| (before, behind))) {
            let n = 1 << (before >> 3);
            for rom in [0, 1, n - 1, n, n + 1, 255, 256, 511].into_iter().filter(|rom| *rom < 512) {
                let image = with(&fresh, &[((LOG2_N.0, 7), before), (ROM, rom), ((RAM.0, 8), behind)]);
                let expected = if in_range(&image) { of_lengths(&image, banks, both.model.save.len()) } else { NO_STATE };
                let answer = both.memory.set_image(&image);
                assert_eq!(answer, expected, "{before:07b} {rom} {behind:08b}");
                taken += usize::from(answer.is_ok());
            }
        }
        assert!(taken > 0);
    }
}

/// The RAM banks of an image's code, if it is one.
fn ram_banks(image: &Image) -> Option<usize> {
    CODES.into_iter().find(|(code, _)| usize::from(*code) == get(image, CODE)).map(|(_, banks)| banks)
}

/// MBC5's state ranges.
fn in_range(image: &Image) -> bool {
    let Some(banks) = ram_banks(image) else { return false };
    let log2 = get(image, LOG2_N);
    let ram = get(image, RAM) < banks || get(image, RAM) == 0 && get(image, ENABLED) == 0;
    (1..=9).contains(&log2) && get(image, ROM) < 1 << log2 && ram && get(image, MODE) == 0 && get(image, HIGH) == 0
}

/// What an image in range is answered by a bus of so many ROM banks and bytes of save.
fn of_lengths(image: &Image, banks: usize, save: usize) -> Result<(), Refusal> {
    let lengths = [(Which::Rom, banks * 16384, 16384 << get(image, LOG2_N)), (Which::Save, save, ram_banks(image).unwrap() * 8192)];
    match lengths.into_iter().find(|(_, found, expected)| found != expected) {
        Some((memory, found, expected)) => Err(Refusal::WrongLength(WrongLength { memory, found, expected: Expected::Exactly(expected) })),
        None => Ok(()),
    }
}

#[test]
fn the_last_three_bits_are_0() {
    for (banks, code) in cartridges() {
        let mut both = Both::new(banks, code, true);
        let fresh = *both.memory.image();
        for zeros in 0..8 {
            assert_eq!(both.memory.set_image(&with(&fresh, &[(ZEROS, zeros)])), if zeros == 0 { Ok(()) } else { NO_STATE });
        }
    }
}

#[test]
fn log_use_is_whole_records() {
    let mut both = Both::new(512, 4, false);
    let fresh = *both.memory.image();
    for used in 0..=0xFFFF {
        assert_eq!(both.memory.set_image(&with(&fresh, &[(USED, used)])), if used % 4 == 0 { Ok(()) } else { NO_STATE }, "{used}");
    }
}

/// An image of another mapper: more than 128 banks are of MBC5 alone.
#[test]
fn other_mappers() {
    for banks in ROM_BANKS {
        let mut both = Both::new(banks, 0, false);
        let fresh = *both.memory.image();
        for mapper in 0..3 {
            let most = [2, 128, 16][mapper];
            // Mbc2 has RAM of its own.
            let lengths = Err(Refusal::WrongLength(WrongLength { memory: Which::Save, found: 0, expected: Expected::Exactly(512) }));
            let expected = match mapper {
                _ if most < banks => NO_STATE,
                2 => lengths,
                _ => Ok(()),
            };
            assert_eq!(both.memory.set_image(&with(&fresh, &[(MAPPER, mapper)])), expected, "{mapper} {banks}");
            // RAM code 4 is of MBC5 alone, and 1, 5, 6 and 7 are of none.
            for code in [1, 4, 5, 6, 7] {
                assert_eq!(both.memory.set_image(&with(&fresh, &[(MAPPER, mapper), (CODE, code)])), NO_STATE, "{mapper} {code}");
            }
        }
    }
    for (mbc_type, number) in [(MbcType::RomOnly, 0), (MbcType::Mbc1, 1), (MbcType::Mbc2, 2), (MbcType::Mbc5, 3)] {
        assert_eq!((get(bus(mbc_type, 2, 0, false).image(), MAPPER), mbc_type as usize), (number, number));
    }
}
