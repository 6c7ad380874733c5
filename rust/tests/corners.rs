//! Document 01's corners through the safe API, by their numbers there. Corner 12 is in savelog.rs.

mod common;

use common::{bus, colour, each_mapper, monochrome, rom_byte, with_saves, write};
use pouchrattle::{
    Button, CGBColor, Controller, Expected, HostNumbers, Interrupt, MbcType, Memory, Refusal, Timer, Which, Written, WrongLength, LONGEST_BLOCK,
};

fn after(mut memory: Memory, cycles: i32) -> Memory {
    Timer::new().update(cycles, &mut memory).unwrap();
    memory
}

#[test]
fn corner_1_fresh() {
    for memory in each_mapper(false).chain(each_mapper(true)) {
        assert_eq!(memory.read_byte(0xFF44), 0x90);
        assert_eq!(memory.read_byte(0xFF00), 0xC0);
    }
}

#[test]
fn corner_2_divider() {
    for (cycles, div) in [(255, 0xD3), (256, 0xD4), (11520, 0x00)] {
        assert_eq!(after(monochrome(), cycles).read_byte(0xFF04), div, "{cycles}");
    }
}

#[test]
fn corner_3_timer() {
    for (cycles, tima, flags) in [(15, 0xFF, 0xE1), (16, 0xF0, 0xE5), (272, 0xF0, 0xE5)] {
        let mut memory = monochrome();
        write(&mut memory, &[(0xFF07, 0x05), (0xFF06, 0xF0), (0xFF05, 0xFF)]);
        let memory = after(memory, cycles);
        assert_eq!((memory.read_byte(0xFF05), memory.read_byte(0xFF0F)), (tima, flags), "{cycles}");
    }
}

#[test]
fn corner_4_oam_transfer() {
    let in_rom = (rom_byte(0x7F00), rom_byte(0x7F9F));
    for (page, shown) in [(0x7F, in_rom), (0x80, (0x12, 0x34)), (0xDF, (0x12, 0x34)), (0xE0, (0, 0))] {
        for mut memory in each_mapper(false) {
            write(&mut memory, &[(0x8000, 0x12), (0x809F, 0x34), (0xDF00, 0x12), (0xDF9F, 0x34), (0xC000, 0x12), (0xFEA0, 0x78)]);
            write(&mut memory, &[(0xFF46, page)]);
            assert_eq!((memory.read_byte(0xFE00), memory.read_byte(0xFE9F)), shown, "{page:02X}");
            assert_eq!((memory.read_byte(0xFEA0), memory.read_byte(0xFF46)), (0x78, page));
        }
    }
    let mut memory = monochrome();
    write(&mut memory, &[(0xC001, 0x56)]);
    memory.do_dma_transfer(0xC0);
    assert_eq!((memory.read_byte(0xFE01), memory.read_byte(0xFF46)), (0x56, 0xFF));
}

#[test]
fn corner_5_transfer_source() {
    for (given, kept) in [(0x7F, 0x7F), (0xC0, 0xC0), (0x80, 0x00), (0xBF, 0x00)] {
        let mut memory = colour();
        write(&mut memory, &[(0xFF51, given)]);
        assert_eq!(memory.read_byte(0xFF51), kept);
    }
}

#[test]
fn corner_6_work_bank() {
    let mut memory = colour();
    write(&mut memory, &[(0xD000, 0x11), (0xFF70, 2), (0xD000, 0x22), (0xFF70, 0)]);
    assert_eq!((memory.read_byte(0xFF70), memory.read_byte(0xD000)), (0x40, 0x11));
    assert_eq!((memory.wram()[0x1000], memory.wram()[0x2000]), (0x11, 0x22));
}

#[test]
fn corner_7_block() {
    for mut memory in each_mapper(true) {
        write(&mut memory, &[(0xFF51, 0x7F), (0xFF52, 0xF0), (0xFF53, 0x1F), (0xFF54, 0xF0)]);
        assert_eq!(memory.do_hdma(), 36);
        assert_eq!((memory.read_word(0xFF51), memory.read_word(0xFF53)), (0x00A0, 0x0080));
        assert_eq!((memory.read_byte(0x9FF0), memory.read_byte(0x9FFF)), (rom_byte(0x7FF0), rom_byte(0x7FFF)));
    }
}

#[test]
fn corner_8_general_transfer_from_the_page() {
    for mut memory in each_mapper(true) {
        write(&mut memory, &[(0xFF55, 0x00)]);
        assert_eq!((memory.read_byte(0x9FF0), memory.read_byte(0x9FF7), memory.read_byte(0x9FFE)), (0x98, 0xFF, 0x0B));
        // The hidden source is 0000 now, the destination A000: the next lands at 8000.
        write(&mut memory, &[(0xFF55, 0x00)]);
        assert_eq!((memory.read_byte(0x8001), memory.read_byte(0x800F), memory.read_byte(0x8010)), (rom_byte(1), rom_byte(15), 0));
    }
}

#[test]
fn corner_9_general_transfer_at_the_end() {
    for mut memory in with_saves(true) {
        write(&mut memory, &[(0xFF51, 0x01), (0xFF52, 0x00), (0xFF53, 0x1F), (0xFF54, 0xF0), (0xFF55, 0x01)]);
        assert_eq!((memory.read_byte(0x9FF0), memory.read_byte(0x9FFF)), (rom_byte(0x100), rom_byte(0x10F)));
        assert!(memory.save().iter().all(|&byte| byte == 0x11));
    }
}

#[test]
fn corner_10_rom_banks() {
    let first = |bank: usize| rom_byte(bank * 16384);
    let mut memory = bus(MbcType::Mbc1, 4, 0, false);
    write(&mut memory, &[(0x2000, 0x10)]);
    assert_eq!(memory.read_byte(0x4000), first(0));
    write(&mut memory, &[(0x4000, 0x00)]);
    assert_eq!(memory.read_byte(0x4000), first(1));

    let mut memory = bus(MbcType::Mbc1, 128, 0, false);
    write(&mut memory, &[(0x4000, 0x01), (0x2000, 0x00)]);
    assert_eq!(memory.read_byte(0x4000), first(33));
}

#[test]
fn corner_11_half_bytes() {
    let mut memory = bus(MbcType::Mbc2, 2, 0, false);
    write(&mut memory, &[(0x0000, 0x0A), (0xA000, 0xAB)]);
    assert_eq!((memory.read_byte(0xA000), memory.save()[0]), (0x0B, 0x0B));
}

#[test]
fn corner_13_palette() {
    let mut memory = colour();
    write(&mut memory, &[(0xFF68, 0x80), (0xFF69, 0x1F), (0xFF69, 0x7C)]);
    assert_eq!(memory.cgb_background_palettes()[0][0], CGBColor { red: 31, green: 0, blue: 31 });
    assert_eq!(memory.read_byte(0xFF68), 0xC2);

    // The last colour of the sprites, and no other.
    write(&mut memory, &[(0xFF6A, 0xBE), (0xFF6B, 0xE2), (0xFF6B, 0x0F)]);
    let mut sprites = [[CGBColor { red: 0, green: 0, blue: 0 }; 4]; 8];
    sprites[7][3] = CGBColor { red: 2, green: 31, blue: 3 };
    assert_eq!(memory.cgb_sprite_palettes(), sprites);
}

#[test]
fn corner_14_buttons() {
    let mut memory = monochrome();
    let mut controller = Controller::new();
    controller.press(Button::A);
    controller.press(Button::Up);
    controller.update(&mut memory);
    assert_eq!((memory.read_byte(0xFF0F), memory.read_byte(0xFF00)), (0xF1, 0xCB));
    assert!(memory.are_action_keys_enabled() && memory.are_direction_keys_enabled());

    controller.release(Button::Up);
    controller.update(&mut memory);
    assert_eq!(memory.read_byte(0xFF00), 0xCF);
    memory.set_joypad_state(0x01);
    assert_eq!(memory.read_byte(0xFF00), 0xC1);
}

#[test]
fn words_low_byte_first() {
    for mut memory in with_saves(false) {
        assert_eq!(memory.write_word(0xBFFF, 0x3412), Ok(Written { owes_sound: false }));
        assert_eq!((memory.read_byte(0xBFFF), memory.read_byte(0xC000), memory.read_word(0xBFFF)), (0x12, 0x34, 0x3412));
        // FFFF is followed by 0000: the mapper, which switches the RAM off.
        memory.write_word(0xFFFF, 0x0000).unwrap();
        assert_eq!(memory.read_byte(0xA000), 0xFF);
    }
}

#[test]
fn sound_is_the_hosts() {
    let mut memory = monochrome();
    let owed = Ok(Written { owes_sound: true });
    assert_eq!(memory.write_byte(0xFF10, 0x12), owed);
    assert_eq!(memory.write_byte(0xFF3F, 0x12), owed);
    assert_eq!(memory.write_word(0xFF0F, 0x1200), owed);
    assert_eq!(memory.write_byte(0xFF40, 0x91), Ok(Written { owes_sound: false }));
    assert_eq!((memory.read_byte(0xFF10), memory.load(0xFF10)), (0x00, Ok(0x80)));
    memory.sound_mut()[0] = 0x34;
    assert_eq!((memory.read_byte(0xFF10), memory.sound()[0]), (0x34, 0x34));
}

#[test]
fn interrupts_by_their_order() {
    let mut memory = monochrome();
    memory.write_byte(0xFFFF, 0x1F).unwrap();
    memory.remove_interrupt(Interrupt::Vblank);
    assert_eq!(memory.get_interrupts(), None);
    for interrupt in [Interrupt::Joypad, Interrupt::Serial, Interrupt::Timer, Interrupt::Lcd, Interrupt::Vblank] {
        memory.request_interrupt(interrupt);
        assert_eq!(memory.get_interrupts(), Some(interrupt));
    }
    assert_eq!(memory.load(0xFF0F), Ok(0x1F));
}

#[test]
fn blocks() {
    let mut memory = colour();
    write(&mut memory, &[(0x9FFF, 0x12), (0xC000, 0x34), (0xDFFF, 0x56), (0xFE00, 0x78)]);
    for (index, count) in [(0x3FF0, 32), (0x9FF0, 32), (0xBFF8, 16), (0xFDF0, 32), (0xFFFF, LONGEST_BLOCK)] {
        let mut block = vec![0xEE; count];
        memory.read_block(index, &mut block).unwrap();
        let reads: Vec<u8> = (0..count).map(|k| memory.read_byte(index.wrapping_add(k as u16))).collect();
        assert!(block == reads, "{index:04X}");
    }
    let mut long = vec![0xEE; LONGEST_BLOCK + 1];
    let too_long = WrongLength { memory: Which::Block, found: LONGEST_BLOCK + 1, expected: Expected::AtMost(LONGEST_BLOCK) };
    assert_eq!(memory.read_block(0, &mut long), Err(Refusal::WrongLength(too_long)));
    assert!(long.iter().all(|byte| *byte == 0xEE));
}

#[test]
fn overflow() {
    let mut memory = monochrome();
    assert_eq!(memory.cycles_to_overflow(), None);
    write(&mut memory, &[(0xFF07, 0x05), (0xFF05, 0xF0)]);
    let memory = after(memory, 4);
    assert_eq!(memory.cycles_to_overflow(), Some(252));
    assert_eq!(after(memory.clone(), 251).read_byte(0xFF0F), 0xE1);
    assert_eq!(after(memory, 252).read_byte(0xFF0F), 0xE5);
}

#[test]
fn screen() {
    let mut memory = monochrome();
    let numbers = HostNumbers {
        screen_disabled: true,
        scan_line: 0x45,
        irq48_signal: 0xA5,
        lcd_status_mode: 0x5A,
        screen_enable_delay_cycles: -1,
        cycles_counter: i32::MIN,
        aux_cycles_counter: i32::MAX,
        window_line: 0x1234567,
    };
    memory.set_host_numbers(numbers);
    assert_eq!(memory.host_numbers(), numbers);

    memory.enable_screen();
    assert_eq!(memory.host_numbers(), HostNumbers { screen_enable_delay_cycles: 244, ..numbers });
    memory.set_host_numbers(HostNumbers { window_line: 0, ..numbers });
    memory.reset_window_line();
    assert_eq!(memory.host_numbers().window_line, 144);
    memory.disable_screen();
    let numbers = memory.host_numbers();
    assert_eq!((numbers.scan_line, numbers.irq48_signal, numbers.lcd_status_mode, numbers.cycles_counter), (0, 0, 0, 0));
}

#[test]
fn screen_registers() {
    let mut memory = monochrome();
    memory.do_lyc_write(0x90);
    assert_eq!((memory.read_byte(0xFF45), memory.read_byte(0xFF41)), (0x90, 0x84));
    memory.do_lcd_status_write(0x10);
    assert_eq!((memory.read_byte(0xFF41), memory.read_byte(0xFF0F)), (0x94, 0xE3));
    memory.store(0xFF45, 0x91).unwrap();
    memory.compare_ly_to_lyc();
    assert_eq!(memory.read_byte(0xFF41), 0x90);
    memory.do_scanline_write(0x00);
    assert!(memory.host_numbers().screen_disabled);

    let mut memory = monochrome();
    memory.do_lcd_control_write(0x11);
    assert_eq!((memory.read_byte(0xFF40), memory.read_byte(0xFF44)), (0x11, 0x00));
}

#[test]
fn video_banks() {
    let mut memory = colour();
    write(&mut memory, &[(0xFF4F, 1), (0x9FFF, 0x22), (0xFF55, 0x80)]);
    assert_eq!((memory.read_cgb_lcd_ram(0x9FFF, 0), memory.read_cgb_lcd_ram(0x9FFF, 1)), (Ok(0), Ok(0x22)));
    assert_eq!(memory.vram()[0x3FFF], 0x22);
    assert!(memory.is_hdma_enabled());
    memory.do_hdma();
    assert!(!memory.is_hdma_enabled());
}
