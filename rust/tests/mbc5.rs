//! MBC5: the banks that a game sees after lists of writes to its registers, beside a model that keeps the registers apart (common/mbc5.rs). Its save and log
//! are in mbc5_save.rs, its images in mbc5_images.rs, OAM DMA of every page in sprites.rs.

mod common;
#[path = "common/mbc5.rs"]
mod model;

use common::record;
use model::{cartridges, Both, Random, CODES, ROM_BANKS};

#[test]
fn starts_with_bank_1_and_ram_off() {
    for (banks, code) in cartridges() {
        for is_cgb in [false, true] {
            let both = Both::new(banks, code, is_cgb);
            both.alike();
            assert_eq!((both.memory.read_word(0x4000), both.memory.read_byte(0xA000)), (1, 0xFF));
        }
    }
}

#[test]
fn bank_0_at_4000() {
    for banks in ROM_BANKS {
        let mut both = Both::new(banks, 0, false);
        both.writes(&[(0x2000, 0)]);
        both.alike();
        assert_eq!(both.memory.read_word(0x4000), 0);
        // All bytes of the bank, as they stand at 0000.
        assert!((0..0x4000).all(|index| both.memory.read_byte(0x4000 + index) == both.memory.read_byte(index)));
        // 0 by the modulo is 0 too, and 256 is another bank only where there are 512.
        both.writes(&[(0x2000, banks as u8)]);
        both.alike();
        assert_eq!(both.memory.read_word(0x4000), 0);
        both.writes(&[(0x3000, 1)]);
        both.alike();
        assert_eq!(both.memory.read_word(0x4000), if banks == 512 { 256 } else { 0 });
    }
}

/// Every bank by its two registers, in either order, with all bits of the second given.
#[test]
fn every_rom_bank() {
    for banks in ROM_BANKS {
        let mut both = Both::new(banks, 0, false);
        for low in 0..=0xFF {
            for ninth in [0x00, 0x01, 0xFE, 0xFF] {
                both.writes(&[(0x2000, low), (0x3000, ninth)]);
                both.alike();
                both.writes(&[(0x3FFF, !ninth), (0x2FFF, low)]);
                both.alike();
            }
        }
    }
}

/// A register keeps its bits while the other is written.
#[test]
fn the_two_registers_are_apart() {
    let mut both = Both::new(512, 0, false);
    for (index, value, bank) in
        [(0x3000, 1, 257), (0x2000, 0x2C, 300), (0x3000, 0, 44), (0x3000, 3, 300), (0x2000, 0, 256), (0x3000, 2, 0), (0x2000, 0xFF, 255)]
    {
        both.write(index, value);
        both.alike();
        assert_eq!(both.memory.read_word(0x4000), bank);
    }
}

#[test]
fn ram_banks() {
    for (banks, code) in cartridges() {
        let mut both = Both::new(banks, code, false);
        both.writes(&[(0x0000, 0x0A)]);
        for value in (0..=0xFF).chain([3, 4, 15, 16]) {
            both.writes(&[(0x4000, value), (0xA000, value / 2), (0xBFFF, value / 3)]);
            both.alike();
        }
        assert!(both.memory.save() == both.model.save && both.memory.log() == both.model.log());
    }
    // Bank 3 of 4 is the last; 4 is 0 again.
    let mut both = Both::new(2, 3, false);
    both.writes(&[(0x0000, 0x0A), (0x4000, 3), (0xA000, 0x77), (0x5FFF, 4), (0xA000, 0x88)]);
    assert_eq!((both.memory.save()[0x6000], both.memory.save()[0x0000]), (0x77, 0x88));
    assert_eq!(both.memory.log(), [record(0x6000, 0x77), record(0, 0x88)].concat());
    // Of 16 banks it is the fifth, 15 is the last, and 16 is 0 again.
    let mut both = Both::new(2, 4, false);
    both.writes(&[(0x0000, 0x0A), (0x4000, 4), (0xA000, 0x77), (0x4000, 15), (0xBFFF, 0x88), (0x5FFF, 16), (0xA000, 0x99)]);
    assert_eq!([0x8000, 0x1FFFF, 0].map(|at| both.memory.save()[at]), [0x77, 0x88, 0x99]);
    assert_eq!(both.memory.log(), [record(0x8000, 0x77), record(0x1FFFF, 0x88), record(0, 0x99)].concat());
}

/// Every bank of 16, seen through every value of the register, with its own bytes.
#[test]
fn every_ram_bank() {
    let mut both = Both::new(8, 4, false);
    both.write(0x0000, 0x0A);
    for value in 0..=0xFF {
        both.write(0x4000, value);
        let bank = usize::from(value % 16);
        assert_eq!(both.model.ram_bank(), bank);
        assert!((0..0x2000).all(|at| both.memory.read_byte(0xA000 + at) == both.model.save[bank * 0x2000 + usize::from(at)]), "{value}");
    }
}

/// RAM that is off or absent reads FF and stores nothing, whichever value switched it off.
#[test]
fn ram_is_enabled_by_four_bits() {
    for (code, ram_banks) in CODES {
        let mut both = Both::new(2, code, false);
        for value in 0..=0xFF {
            both.writes(&[(0x1FFF, value), (0xA000, value / 2)]);
            both.alike();
            let on = ram_banks > 0 && value % 16 == 0x0A;
            assert_eq!(both.memory.read_byte(0xA000), if on { value / 2 } else { 0xFF });
        }
        assert_eq!(both.model.stored.len(), if ram_banks > 0 { 16 } else { 0 });
        assert!(both.memory.save() == both.model.save && both.memory.log() == both.model.log());
    }
}

/// Every value at both ends of every window, and beside them, with RAM on and all registers set before.
#[test]
fn every_value_at_every_edge() {
    for (banks, code) in cartridges() {
        let mut both = Both::new(banks, code, false);
        for index in [0x0000, 0x1FFF, 0x2000, 0x2FFF, 0x3000, 0x3FFF, 0x4000, 0x5FFF, 0x6000, 0x7FFF, 0x8000, 0x9FFF, 0xC000] {
            both.writes(&[(0x0000, 0x0A), (0x2000, 0x5C), (0x3000, 0x01), (0x4000, 0x02)]);
            for value in 0..=0xFF {
                both.write(index, value);
                both.alike();
            }
        }
        assert!(both.memory.save() == both.model.save && both.memory.log().is_empty());
    }
}

/// Every list of four of these writes, from a fresh bus.
#[test]
fn every_list_of_four() {
    const WRITES: [(u16, u8); 11] = [
        (0x0000, 0x0A),
        (0x0000, 0x00),
        (0x2000, 0x00),
        (0x2FFF, 0xFF),
        (0x3000, 0x00),
        (0x3FFF, 0x01),
        (0x4000, 0x00),
        (0x5FFF, 0x03),
        (0x4000, 0x04),
        (0xA000, 0x77),
        (0xBFFF, 0x88),
    ];
    for (banks, code) in cartridges() {
        let mut both = Both::new(banks, code, false);
        let (fresh, start) = (*both.memory.image(), both.model.clone());
        for list in 0..WRITES.len().pow(4) {
            both.memory.set_image(&fresh).unwrap();
            both.model.clone_from(&start);
            (0..4).for_each(|place| {
                let (index, value) = WRITES[list / WRITES.len().pow(place) % WRITES.len()];
                both.write(index, value);
            });
            both.alike();
            assert!(both.memory.log() == both.model.log(), "{list}");
            if !both.memory.take_log().is_empty() {
                assert!(both.memory.save() == both.model.save, "{list}");
                both.memory.save_mut().unwrap().copy_from_slice(&start.save);
            }
        }
    }
}

#[test]
fn random_lists() {
    for (banks, code) in cartridges() {
        let (mut both, mut random) = (Both::new(banks, code, true), Random(banks as u64 * 10 + u64::from(code)));
        let mut seen = vec![false; banks];
        for _ in 0..5000 {
            let (index, value) = random.write();
            both.write(index, value);
            both.alike();
            seen[both.model.bank()] = true;
        }
        assert!(both.memory.save() == both.model.save && both.memory.log() == both.model.log());
        assert!(seen.iter().filter(|bank| **bank).count() > banks * 3 / 4);
    }
}

/// Blocks to video memory from the bank that is selected when they are copied: 300, and 44, which has the same low bits.
#[test]
fn colour_transfers_from_a_bank_over_255() {
    let mut both = Both::new(512, 3, true);
    let rom = both.memory.rom().to_vec();
    let in_rom = |bank: usize, at: usize, len: usize| rom[bank * 16384 + at..][..len].to_vec();
    assert!(in_rom(300, 0, 0x100) != in_rom(44, 0, 0x100));
    both.writes(&[(0x2000, 0x2C)]);

    // Four blocks from 4100 to 8000; the bank changes between them.
    both.writes(&[(0xFF51, 0x41), (0xFF52, 0x00), (0xFF53, 0x00), (0xFF54, 0x00)]);
    for (block, ninth, bank) in [(0, 1, 300), (1, 0, 44), (2, 1, 300), (3, 1, 300)] {
        both.write(0x3000, ninth);
        assert_eq!(both.memory.do_hdma(), 36);
        assert_eq!(both.memory.vram()[block * 16..][..16], in_rom(bank, 0x100 + block * 16, 16));
    }
    // Started by FF55, one block at once, as the screen is at a line's end.
    both.memory.set_lcd_status_mode(0);
    for (ninth, bank) in [(1, 300), (0, 44)] {
        both.writes(&[(0x3000, ninth), (0xFF51, 0x7F), (0xFF52, 0xF0), (0xFF53, 0x02), (0xFF54, 0x00), (0xFF55, 0x80)]);
        assert_eq!(both.memory.vram()[0x200..][..16], in_rom(bank, 0x3FF0, 16));
    }
    // All at once, from the end of bank 0 into the selected one, and to its end.
    for (bank, source, len) in [(300, 0x3FF0, 0x20), (300, 0x4000, 0x800), (511, 0x7800, 0x800), (256, 0x7F00, 0x100), (255, 0x4000, 0x10)] {
        both.writes(&[(0x3000, (bank / 256) as u8), (0x2000, (bank % 256) as u8)]);
        both.writes(&[(0xFF51, (source >> 8) as u8), (0xFF52, source as u8), (0xFF53, 0x04), (0xFF54, 0x00), (0xFF55, (len / 16 - 1) as u8)]);
        let expected: Vec<u8> = (source..source + len).map(|at| if at < 0x4000 { rom[at] } else { rom[bank * 16384 + at - 0x4000] }).collect();
        assert!(both.memory.vram()[0x400..][..len] == expected, "{bank}");
    }
    // The save, on and off, is not touched.
    assert!(both.memory.save() == both.model.save && both.memory.log().is_empty());
}

/// OAM DMA by its write, from the bank that is selected then.
#[test]
fn sprites_from_a_bank_over_255() {
    let mut both = Both::new(512, 0, false);
    for (bank, page) in [(300, 0x40), (44, 0x40), (511, 0x7F), (256, 0x5F), (0, 0x40), (300, 0x3F)] {
        both.writes(&[(0x3000, (bank / 256) as u8), (0x2000, (bank % 256) as u8), (0xFF46, page)]);
        let at = if page < 0x40 { usize::from(page) * 256 } else { bank * 16384 + usize::from(page - 0x40) * 256 };
        assert!(both.memory.oam() == both.memory.rom()[at..][..160], "{bank}");
    }
}
