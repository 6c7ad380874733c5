//! A whole bus of the Rust's with what stands around it: timer, controller and
//! a log of the save bytes that it tells of, as long as the list says. Answers one call after the other.

use std::cell::RefCell;
use std::rc::Rc;

use gameboy_core::button::Button;
use gameboy_core::joypad::Controller;
use gameboy_core::mmu::interrupt::Interrupt;
use gameboy_core::mmu::probe::{self, Banks};
use gameboy_core::mmu::Memory;
use gameboy_core::timer::Timer;

use super::{digest, excepted};
use crate::hex;
use crate::leaves::interrupts::{INTERRUPTS_IN_ORDER, NONE};
use crate::leaves::joypad::BUTTONS_IN_ORDER;
use crate::leaves::timer::MOST_CYCLES;
use crate::leaves::Bytes;
use crate::machine::{save_byte, NoClock, Shape, MBC1, MBC2, MBC5, ROM_ONLY};
use crate::record::record;
use crate::unseen;

/// Every letter and the number of its input's bytes.
const LETTERS: [(char, usize); 33] = [
    ('N', 54),
    ('R', 2),
    ('M', 2),
    ('W', 3),
    ('V', 4),
    ('Y', 48),
    ('T', 4),
    ('P', 1),
    ('L', 1),
    ('U', 0),
    ('J', 1),
    ('A', 0),
    ('E', 0),
    ('D', 1),
    ('H', 0),
    ('i', 0),
    ('I', 0),
    ('Q', 1),
    ('X', 1),
    ('O', 2),
    ('S', 3),
    ('B', 3),
    ('a', 1),
    ('b', 1),
    ('c', 1),
    ('d', 1),
    ('e', 0),
    ('f', 0),
    ('g', 0),
    ('h', 0),
    ('j', 20),
    ('k', 0),
    ('Z', 0),
];

/// The number of a write that finds no room in the log.
pub const NO_ROOM: u8 = 2;

/// What FF10..FF3F read.
pub const SOUND: std::ops::RangeInclusive<u16> = 0xFF10..=0xFF3F;

pub struct Host {
    pub bus: Memory,
    pub controller: Controller,
    pub shape: Shape,
    pub log: Rc<RefCell<Bytes>>,
    /// The log's length.
    pub room: u16,
    timer: Timer,
}

impl Host {
    /// A fresh bus over the contents of machine.rs; the save is as long as
    /// documents 01 and 02 say, so that the Rust can reach no byte beyond.
    pub fn new(shape: Shape, colour: bool, room: u16) -> Host {
        let mut bus = Memory::from_cartridge(shape.cartridge(), Box::new(NoClock), colour);
        let save = (0..save_length(shape)).map(save_byte).collect();
        bus.get_cartridge_mut().set_ram(save);
        let log = Rc::new(RefCell::new(Vec::new()));
        let told = Rc::clone(&log);
        bus.set_ram_change_callback(Box::new(move |address, value| {
            told.borrow_mut().extend(record(address, value));
        }));
        Host {
            bus,
            controller: Controller::new(),
            shape,
            log,
            room,
            timer: Timer::new(),
        }
    }

    /// What the sound window holds.
    pub fn sound(&self) -> Bytes {
        SOUND.map(|index| self.bus.read_byte(index)).collect()
    }

    pub fn colour(&self) -> bool {
        probe::hidden(&self.bus).colour
    }

    /// What is selected, as ours has it.
    pub fn banks(&self) -> Banks {
        unseen::due(self.shape, probe::hidden(&self.bus).banks)
    }

    /// The answer to any letter but N: the Rust's, and where it is excepted, the
    /// Rust's with what is due instead.
    pub fn answer(&mut self, letter: char, input: &[u8]) -> Bytes {
        if excepted::no_room(letter, input, self.free()) {
            return vec![NO_ROOM];
        }
        match (letter, excepted::page(letter, input)) {
            ('D' | 'W' | 'V', Some(page)) => {
                excepted::copy(&mut self.bus, page, |bus| written(bus, letter, input))
            }
            ('D' | 'W' | 'V', None) => written(&mut self.bus, letter, input),
            _ => self.other(letter, input),
        }
    }

    fn other(&mut self, letter: char, input: &[u8]) -> Bytes {
        let bus = &mut self.bus;
        match letter {
            'R' => return vec![bus.read_byte(hex::word(input))],
            'M' => return bus.read_word(hex::word(input)).to_be_bytes().into(),
            'Y' => return Vec::new(),
            'T' => self.timer.update(number(input), bus),
            'P' => self.controller.press(button(input)),
            'L' => self.controller.release(button(input)),
            'U' => self.controller.update(bus),
            'J' => bus.set_joypad_state(input[0]),
            'A' => return vec![bus.are_action_keys_enabled().into()],
            'E' => return vec![bus.are_direction_keys_enabled().into()],
            'H' => return vec![bus.do_hdma() as u8],
            'i' => return vec![bus.is_hdma_enabled().into()],
            'I' => return vec![bus.get_interrupts().map_or(NONE, |found| found as u8)],
            'Q' => bus.request_interrupt(interrupt(input)),
            'X' => bus.remove_interrupt(interrupt(input)),
            'O' => return vec![bus.load(hex::word(input))],
            'S' => bus.store(hex::word(input), input[2]),
            'B' => return vec![bus.read_cgb_lcd_ram(hex::word(input), input[2].into())],
            'a' => bus.do_lcd_control_write(input[0]),
            'b' => bus.do_lcd_status_write(input[0]),
            'c' => bus.do_scanline_write(input[0]),
            'd' => bus.do_lyc_write(input[0]),
            'e' => bus.compare_ly_to_lyc(),
            'f' => bus.enable_screen(),
            'g' => bus.disable_screen(),
            'h' => bus.reset_window_line(),
            'j' => host_call(bus, input),
            'k' => self.log.borrow_mut().clear(),
            'Z' => return digest::both(self),
            _ => panic!("no letter {letter}"),
        }
        vec![0]
    }

    /// The number of blocks by which the one GDMA that this write starts would
    /// go past 9FFF, if the bytes there would be stored: there our bus
    /// and the Rust differ, and no list may go.
    pub fn blocks_past(&self, letter: char, input: &[u8]) -> usize {
        let hidden = probe::hidden(&self.bus);
        let mut destination = hidden.hdma_destination;
        let value = match (letter, input) {
            ('W', [0xFF, 0x55, value]) | ('V', [0xFF, 0x55, _, value]) => value,
            ('V', [0xFF, 0x54, value, low]) => {
                destination = (destination & 0x1F00) | u16::from(low & 0xF0);
                value
            }
            _ => return 0,
        };
        let starts = hidden.colour && !self.bus.is_hdma_enabled() && *value < 0x80;
        if !starts || !self.stores() {
            return 0;
        }
        let end = usize::from(destination & 0x1FF0) / 16 + usize::from(*value) + 1;
        end.saturating_sub(0x2000 / 16)
    }

    /// Does a write at A000 store?
    pub fn stores(&self) -> bool {
        self.banks().enabled || (self.shape.kind == ROM_ONLY && self.shape.code > 0)
    }

    /// How many bytes of the log are free.
    pub fn free(&self) -> usize {
        usize::from(self.room) - self.log.borrow().len()
    }

    /// May a list hold this call? Within the ranges of documents 01 and 02, and off document 01's one
    /// change; an N starts another list.
    pub fn allows(&self, letter: char, input: &[u8]) -> bool {
        let length = LETTERS.iter().find(|known| known.0 == letter);
        if length.map(|known| known.1) != Some(input.len()) {
            return false;
        }
        match letter {
            'N' => false,
            'W' | 'V' => self.blocks_past(letter, input) == 0,
            'T' => number(input) as u32 <= MOST_CYCLES,
            'P' | 'L' => input[0] < 8,
            'Q' | 'X' => input[0] < 5,
            'O' | 'S' => input[0] == 0xFF,
            'B' => {
                let banks = if self.colour() { 2 } else { 1 };
                (0x80..0xA0).contains(&input[0]) && input[2] < banks
            }
            'j' => input[0] < 2,
            'Y' => input == self.sound(),
            _ => true,
        }
    }
}

/// The calls that can make an OAM DMA.
fn written(bus: &mut Memory, letter: char, input: &[u8]) -> Bytes {
    if letter == 'D' {
        bus.do_dma_transfer(input[0]);
        return vec![0];
    }
    let index = hex::word(input);
    let mut owed = SOUND.contains(&index);
    if letter == 'W' {
        bus.write_byte(index, input[2]);
    } else {
        bus.write_word(index, hex::word(&input[2..]));
        owed |= SOUND.contains(&index.wrapping_add(1));
    }
    vec![owed.into()]
}

/// 0, 8,192 or 32,768 by the code, with Mbc5 131,072 too; Mbc2 has 512.
fn save_length(shape: Shape) -> usize {
    match (shape.kind, shape.code) {
        (MBC2, 0) => 0x200,
        (ROM_ONLY | MBC1 | MBC5, 0) => 0,
        (ROM_ONLY | MBC1 | MBC5, 2) => 0x2000,
        (ROM_ONLY | MBC1 | MBC5, 3) => 0x8000,
        (MBC5, 4) => 0x20000,
        _ => panic!("no such cartridge"),
    }
}

fn host_call(bus: &mut Memory, input: &[u8]) {
    bus.screen_disabled = input[0] == 1;
    bus.scan_line = input[1];
    bus.irq48_signal = input[2];
    bus.lcd_status_mode = input[3];
    bus.gpu_cycles.screen_enable_delay_cycles = number(&input[4..]);
    bus.gpu_cycles.cycles_counter = number(&input[8..]);
    bus.gpu_cycles.aux_cycles_counter = number(&input[12..]);
    bus.gpu_cycles.window_line = number(&input[16..]);
}

/// Four bytes, two's complement.
fn number(input: &[u8]) -> i32 {
    i32::from_be_bytes([input[0], input[1], input[2], input[3]])
}

fn button(input: &[u8]) -> Button {
    BUTTONS_IN_ORDER[usize::from(input[0])]
}

fn interrupt(input: &[u8]) -> Interrupt {
    INTERRUPTS_IN_ORDER[usize::from(input[0])]
}
