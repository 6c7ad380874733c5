//! Lists at the ends of ranges: registers, regions, words, mappers, the log's room,
//! transfers, LCD, palettes, timer, buttons. Always the same.

use super::list::List;
use crate::machine::{Shape, MBC5};
use crate::record;

/// The recorded sample takes fewer of what differs in a number only.
#[derive(Clone, Copy, PartialEq)]
pub enum Size {
    Whole,
    Recorded,
}

const KINDS: [bool; 2] = [false, true];

/// Kind, log2 N, RAM code: all that these lists have. Our program's memory has room
/// for 256 banks.
pub const SHAPES: [(u8, u8, u8); 33] = [
    (0, 1, 0),
    (0, 1, 2),
    (0, 1, 3),
    (1, 1, 0),
    (1, 1, 2),
    (1, 1, 3),
    (1, 2, 0),
    (1, 2, 2),
    (1, 2, 3),
    (1, 3, 0),
    (1, 3, 2),
    (1, 3, 3),
    (1, 7, 0),
    (1, 7, 3),
    (2, 1, 0),
    (2, 2, 0),
    (2, 3, 0),
    (2, 4, 0),
    (3, 1, 0),
    (3, 1, 2),
    (3, 1, 3),
    (3, 1, 4),
    (3, 2, 0),
    (3, 2, 2),
    (3, 2, 3),
    (3, 2, 4),
    (3, 3, 0),
    (3, 3, 3),
    (3, 3, 4),
    (3, 8, 0),
    (3, 8, 2),
    (3, 8, 3),
    (3, 8, 4),
];

/// The first and last byte of every region, and of parts that a rule names.
pub const ENDS: [u16; 42] = [
    0x0000, 0x00FF, 0x0100, 0x1FFF, 0x2000, 0x2100, 0x2FFF, 0x3000, 0x3FFF, 0x4000, 0x5FFF, 0x6000,
    0x7FFF, 0x8000, 0x800F, 0x8FFF, 0x9000, 0x9FF0, 0x9FFF, 0xA000, 0xA1FF, 0xA200, 0xAFFF, 0xBFFF,
    0xC000, 0xCFFF, 0xD000, 0xDDFF, 0xDE00, 0xDFFF, 0xE000, 0xEFFF, 0xF000, 0xFDFF, 0xFE00, 0xFE9F,
    0xFEA0, 0xFEFF, 0xFF00, 0xFF7F, 0xFF80, 0xFFFF,
];

/// Where the second byte of a word falls into another region or rule.
pub const SEAMS: [u16; 21] = [
    0xFFFF, 0x1FFF, 0x2FFF, 0x3FFF, 0x5FFF, 0x7FFF, 0x9FFF, 0xA1FF, 0xBFFF, 0xCFFF, 0xDFFF, 0xEFFF,
    0xFDFF, 0xFEFF, 0xFF03, 0xFF0E, 0xFF0F, 0xFF3F, 0xFF45, 0xFF54, 0xFF68,
];

const VALUES: [u8; 4] = [0x00, 0xFF, 0x5A, 0xA5];

/// Those of them whose mapper has a list in the recorded sample.
const RECORDED_SHAPES: [(u8, u8, u8); 5] = [(1, 1, 0), (1, 3, 3), (2, 2, 0), (3, 3, 0), (3, 8, 3)];

pub fn lists(size: Size) -> Vec<String> {
    let whole = size == Size::Whole;
    let mut lists = Vec::new();
    for colour in KINDS {
        registers(colour, size, &mut lists);
        lists.push(words((1, 2, 3), colour));
        if whole {
            lists.push(words((3, 8, 3), colour));
            lists.push(words((3, 1, 4), colour));
            lists.push(regions((3, 2, 4), colour));
        }
        for shape in [(0, 1, 2), (1, 2, 3), (2, 1, 0), (3, 2, 2)] {
            if whole || colour == (shape.0 == 1) {
                lists.push(regions(shape, colour));
            }
        }
        if whole || colour {
            lists.push(banks(colour));
            lists.push(dma(colour));
            lists.push(blocks(colour));
            lists.push(palettes(colour));
            lists.push(screen(colour));
        }
        if whole || !colour {
            lists.push(timer(colour));
            lists.push(buttons(colour));
            lists.push(interrupts(colour));
            lists.push(modes(colour));
        }
    }
    for (at, shape) in SHAPES.into_iter().enumerate() {
        if whole || RECORDED_SHAPES.contains(&shape) {
            lists.push(mapper(shape, at % 2 == 1));
        }
    }
    lists.push(ram_banks((3, 1, 4), true));
    if whole {
        lists.push(ram_banks((3, 8, 4), false));
        lists.push(ram_banks((3, 2, 3), true));
        for shape in FILLING_SHAPES {
            for room in ROOMS {
                lists.push(filling(shape, room));
            }
        }
        lists.push(longest_log((3, 1, 4)));
    } else {
        for room in [3, 4, 7, 8] {
            lists.push(filling((3, 1, 4), room));
        }
    }
    for shape in [(0, 1, 0), (1, 3, 2), (2, 3, 0), (3, 3, 3)] {
        lists.push(sprites(shape, shape.0 == 1));
    }
    lists.push(copies());
    lists.push(overlaps());
    lists.push(past_the_end((1, 1, 3)));
    if whole {
        lists.push(past_the_end((2, 1, 0)));
        lists.push(past_the_end((0, 1, 0)));
        lists.push(past_the_end((3, 2, 3)));
        lists.push(up_to_the_end((3, 2, 3)));
        lists.push(past_the_end((3, 1, 4)));
        lists.push(up_to_the_end((3, 1, 4)));
    }
    lists.push(up_to_the_end((0, 1, 2)));
    lists.push(up_to_the_end((1, 1, 3)));
    lists.push(around());
    if whole {
        lists
    } else {
        lists.iter().map(|list| thin(list)).collect()
    }
}

/// Without every second of the commonest calls that change nothing.
fn thin(list: &str) -> String {
    let mut kept = false;
    let mut text = String::new();
    for line in list.lines() {
        if line.starts_with(['R', 'M', 'O', 'i']) {
            kept = !kept;
            if !kept {
                continue;
            }
        }
        text += line;
        text.push('\n');
    }
    text
}

fn new((kind, log, code): (u8, u8, u8), colour: bool) -> List {
    List::new(kind, log, code, colour)
}

/// Every register written and read back, as read and as stored.
fn registers(colour: bool, size: Size, lists: &mut Vec<String>) {
    for start in (0xFF00..=0xFFE0).step_by(0x20) {
        let mut list = new((1, 1, 2), colour);
        for index in start..=start + 0x1F {
            let turn = usize::from(index % 4);
            let values = match (size, index) {
                (Size::Recorded, 0xFF80..=0xFFFE) if index % 5 > 0 => continue,
                (Size::Recorded, 0xFF10..=0xFF3F | 0xFF80..=0xFFFE) => &VALUES[turn..=turn],
                _ => &VALUES[..],
            };
            for value in values {
                list.both(index, *value);
            }
            list.load(index);
        }
        lists.push(list.finish());
    }
}

/// Every end read, written, read; RAM off, then on.
fn regions(shape: (u8, u8, u8), colour: bool) -> String {
    let mut list = new(shape, colour);
    list.read_all(&ENDS);
    for enable in [0x00, 0x0A] {
        list.write(0x0000, enable);
        for (at, index) in ENDS.into_iter().enumerate() {
            // The windows' control bytes keep RAM as it is.
            if index >= 0x8000 {
                list.both(index, 0x5A ^ at as u8);
            }
        }
        list.digest();
    }
    // The echo and what it shows, from both sides.
    for (lower, upper) in [(0xC000, 0xE000), (0xD000, 0xF000), (0xDDFF, 0xFDFF)] {
        list.write(lower, 0x3C);
        list.read(upper);
        list.write(upper, 0xC3);
        list.read(lower);
    }
    list.finish()
}

fn words(shape: (u8, u8, u8), colour: bool) -> String {
    let mut list = new(shape, colour);
    for (at, index) in SEAMS.into_iter().enumerate() {
        list.read_word(index);
        list.write_word(index, 0x0A05 + 0x1357 * at as u16);
        list.read_word(index);
    }
    list.write_word(0xFFFF, 0x0A15);
    for index in [0x9FFF, 0xA1FF, 0xA000, 0xBFFE, 0xBFFF, 0xFF54, 0xFFFE] {
        list.write_word(index, 0x1234);
        list.read_word(index);
    }
    list.finish()
}

/// Video and work memory, bank by bank.
fn banks(colour: bool) -> String {
    let mut list = new((0, 1, 0), colour);
    for bank in 0..2 {
        list.both(0xFF4F, bank);
        for index in [0x8000, 0x8FFF, 0x9FFF] {
            list.both(index, 0x30 + bank);
        }
    }
    for bank in if colour { 0..2 } else { 0..1 } {
        for index in [0x8000, 0x8001, 0x8FFF, 0x9FFF] {
            list.video(index, bank);
        }
    }
    // A raw store chooses no bank.
    list.store(0xFF4F, 0x00);
    list.digest();
    list.read_all(&[0xFF4F, 0x8000]);
    list.write(0xFF4F, 0xFE);
    list.read(0x8000);
    for bank in 0..=8 {
        list.both(0xFF70, bank);
        list.write_all(&[(0xC000, bank), (0xD000, 0x40 + bank), (0xDFFF, 0x50 + bank)]);
    }
    list.store(0xFF70, 0x03);
    list.digest();
    list.read_all(&[0xFF70, 0xD000]);
    for bank in 0..=8 {
        list.write(0xFF70, bank);
        list.read_all(&[0xC000, 0xCFFF, 0xD000, 0xDFFF, 0xF000]);
    }
    list.finish()
}

/// Enabling, banks and mode; what the window then shows.
fn mapper(shape: (u8, u8, u8), colour: bool) -> String {
    let mut list = new(shape, colour);
    let window = [0xA000, 0xA1FF, 0xA200, 0xBFFF];
    list.read_all(&window);
    for value in [0x0A, 0x0B, 0x1A, 0x00, 0xFA] {
        list.write(0x0000, value);
        list.read_all(&[0xA000, 0xA1FF]);
    }
    for index in [0x0100, 0x1FFF, 0x00FF, 0x1EFF] {
        list.write(index, 0x00);
        list.read(0xA000);
        list.write(index, 0x0A);
        list.read(0xA000);
    }
    for index in window {
        list.both(index, 0xAB);
    }
    list.digest();
    // Mbc5 has another register from 3000 on.
    let selecting: &[u16] = match shape.0 {
        MBC5 => &[0x2000, 0x3000, 0x2FFF, 0x3FFF],
        _ => &[0x2000, 0x2100, 0x3FFF],
    };
    for value in [
        0x00, 0x01, 0x02, 0x03, 0x04, 0x07, 0x08, 0x0F, 0x10, 0x1F, 0x20, 0xE0, 0xFF,
    ] {
        for index in selecting {
            list.write(*index, value);
            list.read(0x4000);
        }
        list.read_all(&[0x0000, 0x3FFF, 0x7FFF]);
    }
    list.digest();
    for mode in [0, 1, 0xFE, 0xFF] {
        list.write(0x6000, mode);
        for bank in [0, 1, 2, 3, 4, 0x0C, 0xFF] {
            list.write(0x4000 + u16::from(bank & 1) * 0x1FFF, bank);
            list.read_all(&[0x4000, 0xA000]);
            list.both(0xA001, 0x70 + (bank & 0x0F));
            list.both(0xBFFE, 0x60 + (bank & 0x0F));
        }
        list.digest();
        list.write(0x2000, 0x00);
        list.read_all(&[0x4000, 0x7FFF]);
        list.write(0x2000, 0x05);
        list.read_all(&[0x4000, 0xA001]);
    }
    // Clearing the log, and records after it.
    list.digest();
    list.call('k', &[]);
    list.digest();
    list.write_all(&[(0xA010, 0x99), (0xA010, 0x99)]);
    list.digest();
    list.write_all(&[(0x7FFF, 0x00), (0x0000, 0x00), (0xA010, 0x11)]);
    list.read_all(&window);
    list.finish()
}

/// Every RAM bank that four bits name: read, stored in, by a word too, and copied from.
/// Then all are read once more.
fn ram_banks(shape: (u8, u8, u8), colour: bool) -> String {
    let mut list = new(shape, colour);
    list.write(0x0000, 0x0A);
    for bank in 0..16 {
        list.write(0x4000 + u16::from(bank) * 0x111, bank);
        list.read(0xA000);
        list.both(0xA000, 0xB0 + bank);
        list.write_word(0xBFFE, u16::from_be_bytes([0xC0 + bank, 0xD0 + bank]));
        list.call('D', &[0xA0]);
        list.read_all(&[0xFE00, 0xFE01]);
    }
    list.digest();
    // RAM that is off keeps its bank.
    list.write(0x0000, 0x00);
    list.both(0xA000, 0x55);
    list.write(0x0000, 0x0A);
    list.read(0xA000);
    // The upper half of the value does not count.
    for bank in 0..16 {
        list.write(0x5FFF, 0xF0 - 0x10 * bank + bank);
        list.read_all(&[0xA000, 0xBFFE, 0xBFFF]);
    }
    list.finish()
}

/// What the shorter logs hold: so many bytes that 3 or 4, 7 or 8 are free at the start,
/// and those lengths with a record or two behind it.
const ROOMS: [u16; 9] = [0, 3, 4, 7, 8, 11, 12, 15, 16];

/// Stores always, when enabled, half bytes, in sixteen banks, never.
const FILLING_SHAPES: [(u8, u8, u8); 5] = [(0, 1, 2), (1, 2, 3), (2, 1, 0), (3, 1, 4), (3, 2, 0)];

/// A log that fills up: with RAM off, where a write takes no room but must find it, then
/// on, words first; cleared, bytes first.
fn filling((kind, log, code): (u8, u8, u8), room: u16) -> String {
    let shape = Shape { kind, log, code };
    let mut list = List::with_log(shape, false, room);
    list.write(0x4000, 0x0D);
    for enable in [0x00, 0x0A] {
        list.write(0x0000, enable);
        for (at, index) in (1..).zip([0xA010, 0x9FFF, 0xBFFF]) {
            list.write_word(index, 0x1357 * at);
            list.read_word(index);
        }
        for (at, index) in (1..).zip([0xA000, 0xBFFF, 0x9FFF, 0xC000]) {
            list.both(index, 0x13 * at);
        }
        list.digest();
    }
    list.call('k', &[]);
    list.digest();
    for at in 0..3 {
        list.both(0xA020 + at, 0x21 + at as u8);
        list.write_word(0xA030 + 2 * at, 0x4243 + at);
        list.read_word(0xA030 + 2 * at);
    }
    list.finish()
}

/// The longest log, filled by words: 7 bytes are left, then 3.
fn longest_log(shape: (u8, u8, u8)) -> String {
    let mut list = new(shape, false);
    list.write(0x0000, 0x0A);
    let words = record::LOG_LENGTH / (2 * record::LENGTH);
    for at in 0..words as u16 {
        if at % 0x400 == 0 {
            list.write(0x4000, 15 - (at / 0x400) as u8);
        }
        list.write_word(0xA000 + at * 2 % 0x2000, at ^ 0x5AA5);
    }
    for _ in 0..2 {
        list.write_word(0xA000, 0x1234);
        list.both(0xA000, 0x56);
        list.digest();
    }
    list.call('k', &[]);
    list.write_word(0xA000, 0x789A);
    list.finish()
}

/// OAM DMA from pages at every seam, by FF46 and by its own call.
fn dma(colour: bool) -> String {
    let mut list = new((1, 1, 2), colour);
    for page in [0x80, 0x9F, 0xA0, 0xBF, 0xC0, 0xCF, 0xD0, 0xDF, 0xE0, 0xFD] {
        let start = page << 8;
        for (at, place) in [0x00, 0x01, 0x9F, 0xA0].into_iter().enumerate() {
            list.write(start + place, (page as u8) ^ (at as u8 + 1));
        }
    }
    list.write_all(&[(0xFE9F, 0x77), (0xFEA0, 0x78), (0xFEFF, 0x79)]);
    for page in [
        0x00, 0x3F, 0x40, 0x7F, 0x80, 0x9F, 0xA0, 0xBF, 0xC0, 0xCF, 0xD0, 0xDF, 0xE0, 0xFD, 0xFE,
        0xFF,
    ] {
        list.call('D', &[page]);
        list.read_all(&[0xFE00, 0xFE9F, 0xFEA0, 0xFF46]);
        list.write(0xFE00, page ^ 0xFF);
        list.write(0xFF46, page);
        list.read_all(&[0xFE00, 0xFE01, 0xFF46]);
        list.digest();
    }
    list.write(0x0000, 0x0A);
    list.write(0xA09F, 0x42);
    for page in [0xA0, 0xBF] {
        list.write(0xFF46, page);
        list.read_all(&[0xFE00, 0xFE9F]);
    }
    list.finish()
}

/// OAM DMA from ROM, by every way to it, with every bank asked for before
/// (2100: Mbc1, Mbc2 and Mbc5 select there; RomOnly shows bank 1).
fn sprites(shape: (u8, u8, u8), colour: bool) -> String {
    let mut list = new(shape, colour);
    list.write_all(&[(0xFEA0, 0x78), (0xFEFF, 0x79)]);
    for bank in 0..1 << shape.1 {
        list.write(0x2100, bank);
        for (at, page) in [0x00, 0x3F, 0x40, 0x41, 0x7F].into_iter().enumerate() {
            list.write(0xFE00, page ^ 0xFF);
            match (usize::from(bank) + at) % 4 {
                0 => drop(list.call('D', &[page])),
                1 => list.write(0xFF46, page),
                2 => list.write_word(0xFF46, u16::from_be_bytes([0xE4, page])),
                _ => list.write_word(0xFF45, u16::from_be_bytes([page, 0x90])),
            }
            list.read_all(&[0xFE00, 0xFE9F, 0xFEA0, 0xFF46]);
            list.digest();
        }
    }
    list.finish()
}

/// HDMA blocks by their own call and by FF55, in every LCD mode.
fn blocks(colour: bool) -> String {
    let mut list = new((1, 1, 2), colour);
    let registers = [0xFF51, 0xFF52, 0xFF53, 0xFF54, 0xFF55];
    list.call('H', &[]);
    list.read_all(&registers);
    list.digest();
    for (source, destination) in [
        (0x0000, 0x0000),
        (0x7FF0, 0x1FF0),
        (0x7FE0, 0x1FE0),
        (0xC000, 0x0010),
        (0xFFF0, 0x9FF0),
        (0xFF50, 0xFFFF),
        (0xFE00, 0x1000),
    ] {
        list.addresses(source, destination);
        list.call('H', &[]);
        list.read_all(&registers);
        list.call('H', &[]);
        list.call('i', &[]);
        list.read_all(&[0x8000, 0x9FF0]);
        list.digest();
    }
    for mode in 0..4 {
        list.host([0, 0x10, 0, mode], [0; 4]);
        list.addresses(0x4000 + 0x20 * u16::from(mode), 0x0100 * u16::from(mode));
        for value in [0x80, 0x81, 0xFF] {
            list.write(0xFF55, value);
            list.call('i', &[]);
            list.read_all(&registers);
            list.digest();
            while list.call('i', &[]) == [1] && value < 0x83 {
                list.call('H', &[]);
                list.read(0xFF55);
            }
            list.digest();
        }
        // Still on from FF: another length, then a stop.
        list.write(0xFF55, 0x92);
        list.read(0xFF55);
        list.write(0xFF55, 0x12);
        list.read(0xFF55);
        list.call('i', &[]);
    }
    // From the save, where a source comes after 7FF0.
    for enable in [0x00, 0x0A] {
        list.write(0x0000, enable);
        list.addresses(0x7FF0, 0x0200);
        list.call('H', &[]);
        list.call('H', &[]);
        list.read_all(&[0x8200, 0x8210, 0x821F]);
    }
    // FF55 counts down from a stored number too.
    for value in [0x01, 0x00, 0xFF] {
        list.store(0xFF55, value);
        list.call('H', &[]);
        list.read(0xFF55);
        list.call('i', &[]);
    }
    list.finish()
}

/// GDMA from everywhere, to both ends of video memory and both banks.
fn copies() -> String {
    let mut list = new((1, 2, 3), true);
    list.write_all(&[
        (0xC000, 0x12),
        (0xCFFF, 0x34),
        (0xDFFF, 0x56),
        (0xFE00, 0x78),
    ]);
    for (at, source) in [
        0x0000, 0x3FF0, 0x4000, 0x7FF0, 0x8000, 0xBFF0, 0xC000, 0xCFF0, 0xDFF0, 0xE000, 0xFDF0,
        0xFE00, 0xFEF0, 0xFF00, 0xFF10, 0xFF50, 0xFFF0,
    ]
    .into_iter()
    .enumerate()
    {
        list.write(0xFF4F, at as u8 & 1);
        for destination in [0x0000, 0x1FF0, 0x1FE0] {
            list.addresses(source, destination);
            list.transfer(if destination == 0x1FF0 { 0x00 } else { 0x01 });
        }
        list.read_all(&[0x8000, 0x8010, 0x9FE0, 0x9FF0, 0x9FFF, 0xFF51]);
    }
    // The largest, from one end to beyond the middle.
    list.addresses(0x4000, 0x0000);
    list.transfer(0x7F);
    list.addresses(0xFC00, 0x1800);
    list.transfer(0x7F);
    list.finish()
}

/// Sources in video memory: reached by running on from 7FF0. Then on through
/// the mapper's window, RAM off and on.
fn overlaps() -> String {
    let mut list = new((1, 1, 2), true);
    // Rising and falling, by less than a block's length and by more.
    for (source, destination, length) in [
        (0x7FF0, 0x0000, 0x01),
        (0x7FF0, 0x0000, 0x7F),
        (0x7FE0, 0x0010, 0x07),
        (0x7FF0, 0x0010, 0x03),
        (0x7F00, 0x0000, 0x1F),
        (0x7F00, 0x0100, 0x1F),
        (0x7800, 0x0000, 0x7F),
    ] {
        list.write_all(&[(0x8000, 0x77), (0x800F, 0x88), (0x8010, 0x99)]);
        list.addresses(source, destination);
        list.transfer(length);
        list.read_all(&[0x8000, 0x800F, 0x8010, 0x801F, 0x8100, 0x87FF]);
        // From where it stopped, within video memory.
        list.transfer(length);
        list.write(0xFF53, 0x08);
        list.transfer(0x03);
    }
    for enable in [0x00, 0x0A] {
        list.write(0x0000, enable);
        list.addresses(0x7FF0, 0x0000);
        list.transfer(0x00);
        // 8000..BFFF in eight steps, then on into work memory.
        for step in 0..9 {
            list.write_all(&[(0xFF53, step % 3 * 8), (0xFF54, 0x10 * step)]);
            list.transfer(0x7F);
        }
        list.read_all(&[0x8000, 0x8800, 0x9000, 0x97FF]);
    }
    list.finish()
}

/// Over the end with nothing stored there: the bytes up to 9FFF land.
fn past_the_end(shape: (u8, u8, u8)) -> String {
    let mut list = new(shape, true);
    for bank in 0..2 {
        list.write(0xFF4F, bank);
        for (source, destination, length) in [
            (0x0123, 0x1FF0, 0x01),
            (0x4000, 0x1FF0, 0x7F),
            (0x4100, 0x1FE0, 0x02),
            (0x4200, 0x1800, 0x7F),
            (0x7FF0, 0x1F00, 0x10),
            (0xFFF0, 0x1FF0, 0x01),
            (0xFF50, 0x1FF0, 0x03),
        ] {
            list.addresses(source, destination);
            list.transfer(length);
            list.read_all(&[0x8000, 0x9FF0, 0x9FFF, 0xA000, 0xA1FF, 0xFF51, 0xFF54]);
            // The hidden addresses went on all the same.
            list.transfer(0x00);
            list.call('H', &[]);
            list.read_all(&[0xFF51, 0xFF52, 0xFF53, 0xFF54, 0xFF55]);
        }
    }
    list.write(0x0000, 0x0A);
    list.read_all(&[0xA000, 0xA00F, 0xA010, 0xA1FF]);
    list.finish()
}

/// RAM that stores: up to the last byte, and the save stays.
fn up_to_the_end(shape: (u8, u8, u8)) -> String {
    let mut list = new(shape, true);
    list.write(0x0000, 0x0A);
    for (destination, length) in [
        (0x1FF0, 0x00),
        (0x1FE0, 0x01),
        (0x1800, 0x7F),
        (0x1F00, 0x0F),
    ] {
        list.addresses(0x4000, destination);
        list.transfer(length);
        list.read_all(&[0x9FF0, 0x9FFF, 0xA000, 0xA7EF]);
        list.write_word(0xFF54, (u16::from(length) << 8) | (destination & 0xFF));
        list.digest();
    }
    list.finish()
}

/// Hidden addresses all the way round 65,536.
fn around() -> String {
    let mut list = new((1, 1, 0), true);
    list.addresses(0x4000, 0x1FF0);
    for _ in 0..33 {
        list.transfer(0x7F);
    }
    list.call('H', &[]);
    list.read_all(&[0xFF51, 0xFF52, 0xFF53, 0xFF54, 0xFF55]);
    list.addresses(0xFFF0, 0x1FF0);
    for _ in 0..4 {
        list.call('H', &[]);
        list.read_word(0xFF51);
        list.read_word(0xFF53);
    }
    list.finish()
}

fn palettes(colour: bool) -> String {
    let mut list = new((0, 1, 0), colour);
    for select in [0xFF68, 0xFF6A] {
        let data = select + 1;
        for start in [
            0x00, 0x01, 0x3E, 0x3F, 0x40, 0x7F, 0x80, 0x81, 0xBE, 0xBF, 0xC0, 0xFF,
        ] {
            list.write(select, start);
            for value in [0xFF, 0x5A, 0x00] {
                list.both(data, value);
                list.read(select);
                list.load(data);
            }
            list.load(select);
        }
        list.digest();
        // All 64 bytes, then some read back through the index.
        list.write(select, 0x80);
        for at in 0..64u8 {
            list.write(data, at.wrapping_mul(41) ^ 0x9D);
        }
        list.digest();
        for index in [0x00, 0x01, 0x0F, 0x10, 0x2A, 0x3F] {
            list.write(select, index);
            list.load(data);
            list.read(data);
        }
        // A raw store moves the index without making the byte.
        list.store(select, 0x90);
        list.digest();
        list.load(data);
        list.write(data, 0x33);
        list.load(data);
    }
    list.finish()
}

fn timer(colour: bool) -> String {
    let mut list = new((0, 1, 0), colour);
    let registers = [0xFF04, 0xFF05, 0xFF0F];
    // The most steps that one update can make.
    list.write_all(&[(0xFF07, 0x04), (0xFF06, 0x17), (0xFF05, 0x00)]);
    list.timer(1023);
    list.write(0xFF07, 0x05);
    list.timer(65_536);
    list.digest();
    for tac in 0..8 {
        let period = [1024, 16, 64, 256][usize::from(tac & 3)];
        list.write_all(&[
            (0xFF07, tac),
            (0xFF06, 0xF0),
            (0xFF05, 0xFE),
            (0xFF0F, 0x00),
        ]);
        for cycles in [0, period - 1, 1, period, 2 * period + 1, 65_535, 65_536] {
            list.timer(cycles);
            list.read_all(&registers);
        }
    }
    list.digest();
    // DIV: its write leaves the rest of its step.
    for cycles in [255, 1, 200, 256] {
        list.write(0xFF04, 0xFF);
        list.timer(cycles);
        list.read(0xFF04);
    }
    // A rest from a longer period bursts.
    list.write_all(&[(0xFF07, 0x04), (0xFF05, 0x00)]);
    list.timer(1023);
    for tac in [0x07, 0x06, 0x05, 0xFD] {
        list.both(0xFF07, tac);
        list.timer(0);
        list.read(0xFF05);
        list.digest();
    }
    // TMA FF: every step reloads.
    list.write_all(&[(0xFF06, 0xFF), (0xFF05, 0xFF), (0xFF0F, 0x00)]);
    list.timer(16);
    list.read_all(&registers);
    list.finish()
}

fn buttons(colour: bool) -> String {
    let mut list = new((0, 1, 0), colour);
    list.call('U', &[]);
    for select in [0x00, 0x10, 0x20, 0x30, 0xCF, 0xFF] {
        list.both(0xFF00, select);
        list.call('A', &[]);
        list.call('E', &[]);
        for button in 0..8 {
            list.call('P', &[button]);
            list.call('U', &[]);
            list.read(0xFF00);
        }
        list.read(0xFF0F);
        list.write(0xFF0F, 0x00);
        // Held already: no mark. Then two presses, one mark.
        list.call('P', &[0x02]);
        list.call('U', &[]);
        list.call('L', &[0x04]);
        list.call('L', &[0x00]);
        list.call('P', &[0x04]);
        list.digest();
        list.call('P', &[0x00]);
        list.digest();
        list.call('U', &[]);
        list.read_all(&[0xFF0F, 0xFF00]);
        for button in 0..8 {
            list.call('L', &[button]);
        }
        list.call('U', &[]);
        list.read(0xFF00);
    }
    for state in [0x00, 0xFF, 0x5A, 0xA5] {
        list.call('J', &[state]);
        for select in [0x10, 0x20] {
            list.both(0xFF00, select);
        }
    }
    list.finish()
}

fn interrupts(colour: bool) -> String {
    let mut list = new((0, 1, 0), colour);
    list.call('I', &[]);
    for interrupt in 0..5 {
        list.both(0xFFFF, 1 << interrupt);
        list.call('I', &[]);
        list.call('Q', &[interrupt]);
        list.load(0xFF0F);
        list.call('I', &[]);
        list.call('X', &[interrupt]);
        list.load(0xFF0F);
        list.call('I', &[]);
    }
    list.write(0xFFFF, 0xFF);
    for interrupt in [4, 3, 2, 1, 0] {
        list.call('Q', &[interrupt]);
        list.call('I', &[]);
    }
    // Bits beyond the five come in by raw stores only.
    for value in [0xE0, 0xC0, 0xFF, 0x00] {
        list.store(0xFF0F, value);
        list.store(0xFFFF, value);
        list.call('I', &[]);
        list.read_all(&[0xFF0F, 0xFFFF]);
        list.call('Q', &[2]);
        list.load(0xFF0F);
        list.store(0xFF0F, value);
        list.call('X', &[2]);
        list.load(0xFF0F);
    }
    list.finish()
}

/// The LCD calls by themselves, on a screen that is on and one that is off.
fn screen(colour: bool) -> String {
    let mut list = new((0, 1, 0), colour);
    let numbers = [1, -1, i32::MAX, i32::MIN];
    for disabled in 0..2 {
        for line in [0x00, 0x7F, 0x80, 0x8F, 0x90, 0xFF] {
            for letter in ['e', 'f', 'g', 'h'] {
                list.host([disabled, line, 0x08, 2], numbers);
                list.call(letter, &[]);
                list.read(0xFF44);
                list.digest();
            }
            for value in [0x00, 0x80] {
                list.host([disabled, line, 0x08, 2], numbers);
                list.call('c', &[value]);
                list.digest();
            }
        }
    }
    // The window's line: LCDC bit 5 rising, scan line past WY and below 144.
    for (line, wy, window) in [
        (0x50, 0x4F, 0),
        (0x50, 0x50, 0),
        (0x8F, 0x00, 0),
        (0x90, 0x00, 0),
        (0x50, 0x4F, 1),
        (0x50, 0x4F, -1),
    ] {
        for (from, to) in [(0x80, 0xA0), (0xA0, 0xA0), (0x80, 0x20)] {
            list.store(0xFF40, from);
            list.write(0xFF4A, wy);
            list.host([0, line, 0, 3], [0, 5, 6, window]);
            list.write(0xFF40, to);
            list.read(0xFF41);
            list.digest();
        }
        list.host([1, line, 0, 3], [7, 8, 9, window]);
        list.call('h', &[]);
        list.call('a', &[0xFF]);
        list.digest();
    }
    list.finish()
}

/// FF41 and FF45 in every mode, with every kind of signal.
fn modes(colour: bool) -> String {
    let mut list = new((0, 1, 0), colour);
    for mode in [0, 1, 2, 3, 4] {
        for (signal, stat) in [
            (0x00, 0x08),
            (0x00, 0x10),
            (0x00, 0x20),
            (0x00, 0x40),
            (0x00, 0xFF),
            (0x01, 0x08),
            (0x02, 0x38),
            (0xFF, 0x78),
            (0x0F, 0x00),
        ] {
            list.write(0xFF0F, 0x00);
            list.host([0, 0x45, signal, mode], [0; 4]);
            list.write(0xFF41, stat);
            list.read_all(&[0xFF41, 0xFF0F]);
        }
        list.digest();
    }
    for (control, disabled) in [(0x80, 0), (0x00, 0), (0x80, 1)] {
        for signal in [0x00, 0x08, 0x01] {
            list.store(0xFF40, control);
            list.store(0xFF41, 0x40);
            list.host([disabled, 0x45, signal, 0], [0; 4]);
            for value in [0x44, 0x45, 0x45, 0x46] {
                list.write(0xFF0F, 0x00);
                list.write(0xFF45, value);
                list.read_all(&[0xFF41, 0xFF0F]);
            }
            list.call('d', &[0x45]);
            list.call('b', &[0x48]);
            list.digest();
            list.call('e', &[]);
            list.read_all(&[0xFF41, 0xFF0F]);
            list.digest();
        }
    }
    list.finish()
}
