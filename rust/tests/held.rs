//! What a bus holds, as its host sees it: memories, the screen's fields, a save of gameboy_core.

mod common;

use common::{bus, cartridge, colour, monochrome, rom_byte, with_save, with_saves, write};
use pouchrattle::{recover, version, Cartridge, Expected, GpuCycles, HostNumbers, MbcType, Memory, NotCut, Refusal, Which, WrongLength, IMAGE_LEN, RECORD_LEN};

#[test]
fn rom() {
    for (mbc_type, banks, len) in [(MbcType::Mbc1, 4, 65536), (MbcType::Mbc5, 512, 8_388_608)] {
        let memory = bus(mbc_type, banks, 0, false);
        assert!(memory.rom().len() == len && memory.rom().iter().enumerate().all(|(at, byte)| *byte == rom_byte(at)));
    }
}

#[test]
fn the_save_is_changed_on_an_empty_log_alone() {
    with_saves(false).for_each(changed_on_an_empty_log_alone);
}

fn changed_on_an_empty_log_alone(mut memory: Memory) {
    let file = memory.save().to_vec();
    write(&mut memory, &[(0xA000, 0x22), (0xA001, 0x23)]);
    assert!(memory.save_mut().is_none());

    // The records that were there, played over the changed save, would undo the change.
    let log = memory.take_log();
    let mut before = file;
    recover(&mut before, &log).unwrap();
    assert!(before == memory.save());
    memory.save_mut().unwrap()[0] = 0x33;
    assert_eq!((memory.read_byte(0xA000), memory.read_byte(0xA001)), (0x33, 0x23));

    // Those that come are later than the change: over the save as it was left, they give the save.
    let mut after = memory.save().to_vec();
    write(&mut memory, &[(0xA000, 0x44), (0xA002, 0x45)]);
    assert!(memory.save_mut().is_none());
    recover(&mut after, memory.log()).unwrap();
    assert!(after == memory.save());
}

#[test]
fn debug_is_short() {
    let mut memory = with_save(true);
    write(&mut memory, &[(0xA000, 1)]);
    let shown = format!("{memory:?}");
    let memories = "Memory { rom: 32768 bytes, vram: 16384 bytes, wram: 32768 bytes, save: 8192 bytes, log: 4 of 65535 bytes, kept: 0, ";
    assert!(shown.starts_with(memories) && shown.contains("scan_line: 144") && shown.len() < 400, "{shown}");
    let shown = format!("{:?}", cartridge(MbcType::Mbc2, 16, 0));
    assert_eq!(shown, "Cartridge { rom: 262144 bytes, mbc_type: Mbc2, ram_size: 0 }");
}

/// Sets a field to each of some values: it alone changes, and nothing else of the bus.
macro_rules! field {
    ($name:ident, $set:ident, $values:expr) => {
        for mut memory in [monochrome(), colour()] {
            memory.set_host_numbers(COUNTED);
            for value in $values {
                let mut expected = memory.clone();
                expected.set_host_numbers(HostNumbers { $name: value, ..expected.host_numbers() });
                memory.$set(value);
                assert!(memory == expected, "{}", stringify!($name));
                assert_eq!(memory.$name(), value);
                assert_eq!(memory.host_numbers(), HostNumbers { $name: value, ..COUNTED });
            }
        }
    };
}

const COUNTED: HostNumbers = HostNumbers {
    screen_disabled: true,
    scan_line: 1,
    irq48_signal: 2,
    lcd_status_mode: 3,
    screen_enable_delay_cycles: 4,
    cycles_counter: 5,
    aux_cycles_counter: 6,
    window_line: 7,
};

#[test]
fn fields() {
    let bytes = [0, 0x5A, 0x80, 0xFF];
    let counters = [0, 1, -1, 0x12345678, i32::MIN, i32::MAX];
    field!(screen_disabled, set_screen_disabled, [false, true, true, false]);
    field!(scan_line, set_scan_line, bytes);
    field!(irq48_signal, set_irq48_signal, bytes);
    field!(lcd_status_mode, set_lcd_status_mode, bytes);
    field!(screen_enable_delay_cycles, set_screen_enable_delay_cycles, counters);
    field!(cycles_counter, set_cycles_counter, counters);
    field!(aux_cycles_counter, set_aux_cycles_counter, counters);
    field!(window_line, set_window_line, counters);

    let mut memory = monochrome();
    memory.set_host_numbers(COUNTED);
    let counted = GpuCycles { screen_enable_delay_cycles: 4, cycles_counter: 5, aux_cycles_counter: 6, window_line: 7 };
    assert_eq!(memory.gpu_cycles(), counted);
    memory.set_gpu_cycles(GpuCycles { window_line: -7, ..counted });
    assert_eq!(memory.host_numbers(), HostNumbers { window_line: -7, ..COUNTED });
}

#[test]
fn sprites() {
    let mut memory = colour();
    for k in 0..=0xFF {
        write(&mut memory, &[(0xFE00 + k, !(k as u8))]);
    }
    assert!(memory.oam().iter().enumerate().all(|(k, byte)| *byte == !(k as u8)) && memory.oam().len() == 160);
}

/// A bus may be built on one thread and played on another.
#[test]
fn threads() {
    let memory = with_save(false);
    let read = std::thread::spawn(move || (memory.read_byte(0xA000), memory));
    let (byte, memory) = read.join().unwrap();
    let shared = &memory;
    std::thread::scope(|scope| {
        for _ in 0..2 {
            scope.spawn(move || assert_eq!(shared.read_byte(0xA000), byte));
        }
    });
}

/// The archive's version is the crate's, and images and records have the lengths that the crate knows.
#[test]
fn the_version() {
    let version = version();
    assert_eq!(version.to_string(), env!("CARGO_PKG_VERSION"));
    assert_eq!((version.image_len, version.record_len), (IMAGE_LEN, RECORD_LEN));
}

/// What gameboy_core keeps for a cartridge, so many bytes: a save, and FF behind it.
fn kept(len: usize, save: &[u8]) -> Vec<u8> {
    let mut ram = vec![0xFF; len];
    ram[..save.len()].copy_from_slice(save);
    ram
}

#[test]
fn a_save_of_gameboy_core() {
    use MbcType::*;
    for (mbc_type, code, len, found) in [
        (RomOnly, 0, 0, 32768),
        (RomOnly, 2, 8192, 32768),
        (Mbc1, 0, 0, 32768),
        (Mbc1, 2, 8192, 32768),
        (Mbc5, 0, 0, 131_072),
        (Mbc5, 2, 8192, 131_072),
        (Mbc5, 3, 32768, 131_072),
    ] {
        let cartridge = cartridge(mbc_type, 2, code);
        let save: Vec<u8> = (0..len).map(|at| (at * 7) as u8).collect();
        let mut ram = kept(found, &save);

        // As it is, it is refused, and the words name what cuts it.
        let refused = Memory::new(cartridge.clone(), false, &ram).unwrap_err();
        assert_eq!(refused, Refusal::WrongLength(WrongLength { memory: Which::Save, found, expected: Expected::Exactly(len) }));
        let begin = format!("the save has {},{:03} bytes, and must have ", found / 1000, found % 1000);
        let end = ": if gameboy_core kept it, Cartridge::save_from_gameboy_core cuts it";
        assert!(refused.to_string().starts_with(&begin) && refused.to_string().ends_with(end), "{refused}");

        assert_eq!(cartridge.save_from_gameboy_core(&ram), Ok(&save[..]));
        assert_eq!(cartridge.save_from_gameboy_core(&save), Ok(&save[..]));
        ram[len..].fill(0);
        assert_eq!(cartridge.save_from_gameboy_core(&ram), Ok(&save[..]));
        assert!(Memory::new(cartridge, false, &save).unwrap().save() == save);
    }
}

#[test]
fn what_is_not_cut() {
    for (mbc_type, len) in [(MbcType::Mbc1, 32768), (MbcType::Mbc5, 131_072)] {
        behind_the_save(&cartridge(mbc_type, 2, 2), len);
    }

    let wrong = |found, expected| WrongLength { memory: Which::Save, found, expected: Expected::Exactly(expected) };
    let not_cut = |found, expected| Err(NotCut::WrongLength(wrong(found, expected)));
    for (mbc_type, lens) in [(MbcType::Mbc1, [32767, 32769, 131_072]), (MbcType::Mbc5, [32768, 131_071, 131_073])] {
        for found in [0, 8191, 8193, 16384].into_iter().chain(lens) {
            let cut = cartridge(mbc_type, 2, 2);
            let ram = vec![0xFF; found];
            assert_eq!(cut.save_from_gameboy_core(&ram), not_cut(found, 8192));
            // Its words do not send the host here again.
            assert!(cut.save_from_gameboy_core(&ram).unwrap_err().to_string().ends_with("must have 8,192"));
        }
    }
    // Code 4 of Mbc5 has all of it, whatever is in it; code 3 has not.
    let all: Vec<u8> = (0..131_072).map(|at| (at / 512) as u8).collect();
    assert_eq!(cartridge(MbcType::Mbc5, 2, 4).save_from_gameboy_core(&all), Ok(&all[..]));
    assert!(Memory::new(cartridge(MbcType::Mbc5, 2, 4), false, &all).unwrap().save() == all);
    assert_eq!(cartridge(MbcType::Mbc5, 2, 3).save_from_gameboy_core(&all), Err(NotCut::Used { at: 32768, byte: 64 }));
    for found in [0, 8192, 32768, 131_071, 131_073] {
        let ram = vec![0xFF; found];
        assert_eq!(cartridge(MbcType::Mbc5, 2, 4).save_from_gameboy_core(&ram), not_cut(found, 131_072));
    }
    // Code 3 of Mbc1 has all of it, and Mbc2 512 bytes in gameboy_core too.
    let all = vec![0x11; 32768];
    assert_eq!(cartridge(MbcType::Mbc1, 2, 3).save_from_gameboy_core(&all), Ok(&all[..]));
    assert_eq!(cartridge(MbcType::Mbc2, 2, 0).save_from_gameboy_core(&kept(32768, &[])), not_cut(32768, 512));
    assert_eq!(cartridge(MbcType::Mbc2, 2, 0).save_from_gameboy_core(&[7; 512]), Ok(&[7; 512][..]));
    // No cartridge for which gameboy_core keeps more.
    for (found, expected) in [(131_072, 512), (32768, 512), (32769, 8192), (8192, 0), (512, 8192)] {
        assert!(!wrong(found, expected).to_string().contains("gameboy_core"), "{found} {expected}");
    }
}

/// Of a cartridge with code 2, for which gameboy_core keeps so many bytes.
fn behind_the_save(code_2: &Cartridge, len: usize) {
    // Each byte behind the save counts, and a mixture of FF and 00 is no save that was made.
    for filler in [0x00, 0xFF] {
        let mut ram = kept(len, &[0x11; 8192]);
        ram[8192..].fill(filler);
        for at in [8192, 8193, 20000, len - 1] {
            for byte in [0x00, 0x01, 0x80, 0xFE, 0xFF] {
                ram[at] = byte;
                // The first byte tells with what the rest was made.
                let shown = if at == 8192 && [0x00, 0xFF].contains(&byte) { 8193 } else { at };
                let expected = if byte == filler { Ok(&[0x11; 8192][..]) } else { Err(NotCut::Used { at: shown, byte: ram[shown] }) };
                assert_eq!(code_2.save_from_gameboy_core(&ram), expected, "{at} {byte:02X}");
            }
            ram[at] = filler;
        }
        ram[20000] = 0x4C;
        let words = "this is a save of another cartridge: byte 20,000 is 4C, which this one does not reach";
        assert_eq!(code_2.save_from_gameboy_core(&ram).unwrap_err().to_string(), words);
    }
}

/// A game with code 2 reaches none of what is cut: every write of the save is below 8,192.
#[test]
fn code_2_reaches_the_first_8192_bytes() {
    for mut memory in with_saves(false) {
        write(&mut memory, &[(0x6000, 0x01), (0x4000, 0x03)]);
        for index in [0xA000, 0xBFFF] {
            write(&mut memory, &[(index, 0x5A)]);
        }
        assert_eq!((memory.save()[0], memory.save()[8191], memory.log().len()), (0x5A, 0x5A, 2 * RECORD_LEN));
    }
}
