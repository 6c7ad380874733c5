//! The Rust's recorded answers on a whole bus (crates/replay_bus/stdin; oracle/README.md has its form, and what is excepted), through the safe API and so through the
//! images of the C boundary. A digest of the state is made from the image's fields, so their places are compared with the Rust too.

mod common;

use std::fs;

use common::cartridge;
use pouchrattle::{Button, HostNumbers, Image, Interrupt, MbcType, Memory, Refusal, Written};

const RECORDED: &str = concat!(env!("CARGO_MANIFEST_DIR"), "/../crates/replay_bus/stdin");

#[test]
fn the_rusts_answers() {
    let text = fs::read_to_string(RECORDED).unwrap();
    let mut memory = common::monochrome();
    for (number, line) in text.lines().enumerate() {
        let mut words = line.split(' ');
        let letter = words.next().unwrap();
        let (input, output) = (bytes(words.next().unwrap()), bytes(words.next().unwrap()));
        if letter == "N" {
            memory = fresh(&input);
        } else {
            assert_eq!(answer(&mut memory, letter, &input), output, "line {}: {line}", number + 1);
        }
    }
    assert!(7000 < text.lines().count());
}

fn bytes(word: &str) -> Vec<u8> {
    let digits = if word == "-" { "" } else { word };
    (0..digits.len()).step_by(2).map(|at| u8::from_str_radix(&digits[at..at + 2], 16).unwrap()).collect()
}

fn fresh(input: &[u8]) -> Memory {
    let mbc_type = [MbcType::RomOnly, MbcType::Mbc1, MbcType::Mbc2, MbcType::Mbc5][usize::from(input[0])];
    let cartridge = cartridge(mbc_type, 1 << input[1], input[2]);
    let save: Vec<u8> = (0..cartridge.save_len()).map(|at| (at * 5 + at / 8192 * 11 + 17) as u8).collect();
    let log = u16::from_be_bytes([input[4], input[5]]);
    let mut memory = Memory::with_log(cartridge, input[3] == 1, &save, log.into()).unwrap();
    memory.sound_mut().copy_from_slice(&input[6..]);
    memory
}

fn answer(memory: &mut Memory, letter: &str, input: &[u8]) -> Vec<u8> {
    let first = input.first().copied().unwrap_or(0);
    let word = |at: usize| u16::from_be_bytes([input[at], input[at + 1]]);
    let long = |at: usize| u32::from_be_bytes(input[at..at + 4].try_into().unwrap());
    match letter {
        "R" => return vec![memory.read_byte(word(0))],
        "M" => return memory.read_word(word(0)).to_be_bytes().to_vec(),
        "W" => return written(memory.write_byte(word(0), input[2])),
        "V" => return written(memory.write_word(word(0), word(2))),
        "Y" => {
            memory.sound_mut().copy_from_slice(input);
            return vec![];
        }
        "T" => memory.update_timer(long(0)).unwrap(),
        "P" => memory.press(button(first)),
        "L" => memory.release(button(first)),
        "U" => memory.update_joypad(),
        "J" => memory.set_joypad_state(first),
        "A" => return vec![memory.are_action_keys_enabled().into()],
        "E" => return vec![memory.are_direction_keys_enabled().into()],
        "D" => memory.do_dma_transfer(first),
        "H" => return vec![memory.do_hdma().try_into().unwrap()],
        "i" => return vec![memory.is_hdma_enabled().into()],
        "I" => return vec![memory.get_interrupts().map_or(5, |interrupt| interrupt as u8)],
        "Q" => memory.request_interrupt(interrupt(first)),
        "X" => memory.remove_interrupt(interrupt(first)),
        "O" => return vec![memory.load(word(0)).unwrap()],
        "S" => memory.store(word(0), input[2]).unwrap(),
        "B" => return vec![memory.read_cgb_lcd_ram(word(0), input[2].into()).unwrap()],
        "a" => memory.do_lcd_control_write(first),
        "b" => memory.do_lcd_status_write(first),
        "c" => memory.do_scanline_write(first),
        "d" => memory.do_lyc_write(first),
        "e" => memory.compare_ly_to_lyc(),
        "f" => memory.enable_screen(),
        "g" => memory.disable_screen(),
        "h" => memory.reset_window_line(),
        "j" => memory.set_host_numbers(HostNumbers {
            screen_disabled: first == 1,
            scan_line: input[1],
            irq48_signal: input[2],
            lcd_status_mode: input[3],
            screen_enable_delay_cycles: long(4) as i32,
            cycles_counter: long(8) as i32,
            aux_cycles_counter: long(12) as i32,
            window_line: long(16) as i32,
        }),
        "k" => drop(memory.take_log()),
        "Z" => return [digest(&state(memory.image())), digest(&memories(memory))].concat(),
        _ => panic!("no such letter"),
    }
    vec![0]
}

fn written(outcome: Result<Written, Refusal>) -> Vec<u8> {
    vec![outcome.map_or_else(|refusal| refusal.number(), |written| written.owes_sound.into())]
}

fn button(number: u8) -> Button {
    use Button::*;
    [Up, Down, Left, Right, A, B, Start, Select][usize::from(number)]
}

fn interrupt(number: u8) -> Interrupt {
    use Interrupt::*;
    [Vblank, Lcd, Timer, Serial, Joypad][usize::from(number)]
}

fn digest(bytes: &[u8]) -> [u8; 4] {
    let sum: u64 = bytes.iter().fold(0, |sum, byte| (sum * 257 + u64::from(*byte) + 1) % 4_294_967_291);
    (sum as u32).to_be_bytes()
}

fn memories(memory: &Memory) -> Vec<u8> {
    let used = memory.log().len() as u16;
    [memory.vram(), memory.wram(), memory.save(), &used.to_be_bytes(), memory.log()].concat()
}

/// The widths of the image's fields behind the colours, in document 01's order, up to the log's use.
const WIDTHS: [usize; 28] = [1, 1, 1, 1, 3, 1, 1, 8, 8, 8, 8, 8, 8, 10, 16, 16, 32, 32, 32, 32, 2, 4, 3, 9, 4, 1, 1, 2];
const LOG2_N: usize = 21;

fn state(image: &Image) -> Vec<u8> {
    let mut at = 4096;
    let mut field = |width: usize| {
        at += width;
        (at - width..at).fold(0u32, |value, bit| value << 1 | u32::from(image[bit / 8] >> (7 - bit % 8) & 1))
    };
    let mut bytes = image[..512].to_vec();
    bytes.extend((0..3 * 64).map(|_| field(5) as u8));
    for (place, width) in WIDTHS.into_iter().enumerate() {
        let value = field(width);
        if place == LOG2_N {
            bytes.extend((1u16 << value).to_be_bytes());
        } else {
            bytes.extend(&value.to_be_bytes()[4 - width.div_ceil(8)..]);
        }
    }
    bytes
}
