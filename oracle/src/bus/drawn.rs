//! Random lists, weighted towards registers, ends of ranges and transfers.

use super::edges::{ENDS, SEAMS, SHAPES};
use super::list::List;
use crate::machine::Shape;
use crate::random::Random;
use crate::record::LOG_LENGTH;

/// Registers that do more than store.
const REGISTERS: [u16; 44] = [
    0xFF00, 0xFF03, 0xFF04, 0xFF05, 0xFF06, 0xFF07, 0xFF0E, 0xFF0F, 0xFF40, 0xFF41, 0xFF42, 0xFF43,
    0xFF44, 0xFF45, 0xFF46, 0xFF47, 0xFF48, 0xFF49, 0xFF4A, 0xFF4B, 0xFF4C, 0xFF4D, 0xFF4F, 0xFF51,
    0xFF52, 0xFF53, 0xFF54, 0xFF55, 0xFF56, 0xFF68, 0xFF69, 0xFF6A, 0xFF6B, 0xFF6C, 0xFF70, 0xFF72,
    0xFF74, 0xFF75, 0xFF76, 0xFF77, 0xFF80, 0xFFFE, 0xFFFF, 0xFFFF,
];

const LINES: [u8; 8] = [0x00, 0x01, 0x7F, 0x80, 0x8F, 0x90, 0x99, 0xFF];

/// The high bytes of sources at the ends of regions.
const SOURCES: [u8; 14] = [
    0x00, 0x3F, 0x40, 0x7F, 0x7F, 0x80, 0xBF, 0xC0, 0xCF, 0xDF, 0xE0, 0xFD, 0xFE, 0xFF,
];

/// One list of 60 to 400 calls.
pub fn list(random: &mut Random) -> String {
    let (kind, log, code) = random.pick(&SHAPES);
    let colour = !random.once_in(3);
    // A third of the logs are so short that they fill up.
    let room = if random.once_in(3) {
        random.below(48) as u16
    } else {
        LOG_LENGTH as u16
    };
    let mut list = List::with_log(Shape { kind, log, code }, colour, room);
    let calls = 60 + random.below(300) as usize;
    while list.calls < calls {
        step(&mut list, random);
    }
    list.finish()
}

fn step(list: &mut List, random: &mut Random) {
    match random.below(40) {
        0..=4 => list.write(register(random), value(random)),
        5..=7 => list.read(register(random)),
        8..=9 => list.read(index(random)),
        10..=12 => list.write(index(random), value(random)),
        13 => list.read_word(word_index(random)),
        14..=15 => {
            let word = u16::from_be_bytes([value(random), value(random)]);
            list.write_word(word_index(random), word);
        }
        16..=17 => cartridge(list, random),
        18..=19 => save(list, random),
        20..=22 => transfer(list, random),
        23 => palette(list, random),
        24..=25 => timer(list, random),
        26..=28 => buttons(list, random),
        29..=31 => screen(list, random),
        32 => host(list, random),
        33 => raw(list, random),
        34..=35 => interrupts(list, random),
        36 => {
            let page = if random.once_in(3) {
                random.any_byte()
            } else {
                random.pick(&[
                    0x7F, 0x80, 0x81, 0x9F, 0xA0, 0xA1, 0xBF, 0xC0, 0xD0, 0xDF, 0xE0,
                ])
            };
            list.call('D', &[page]);
        }
        37 => {
            list.call('H', &[]);
            list.call('i', &[]);
        }
        38 => {
            let bank = if list.host.colour() { random.flag() } else { 0 };
            list.video(0x8000 + offset(random, 0x2000), bank);
        }
        _ if random.once_in(4) => {
            list.call('k', &[]);
        }
        _ => list.digest(),
    }
}

fn value(random: &mut Random) -> u8 {
    if random.once_in(6) {
        random.pick(&[0x0A, 0x80, 0x81, 0x91, 0xA0, 0xA1])
    } else {
        random.byte()
    }
}

/// Any of FF00..FFFF; of the sound registers few, since each costs a line.
fn register(random: &mut Random) -> u16 {
    if !random.once_in(5) {
        return random.pick(&REGISTERS);
    }
    let index = 0xFF00 + random.below(256) as u16;
    if List::is_sound(index) && !random.once_in(3) {
        return 0xFF80;
    }
    index
}

/// Anywhere, often at an end or in the few pages that transfers start from.
fn index(random: &mut Random) -> u16 {
    match random.below(8) {
        0 => random.below(65_536) as u16,
        1..=2 => random
            .pick(&ENDS)
            .wrapping_add(random.below(3) as u16 + 0xFFFF),
        3 => 0x8000 + offset(random, 0x2000),
        4 => 0xA000 + offset(random, 0x2000),
        5 => 0xC000 + offset(random, 0x2000),
        6 => 0xE000 + offset(random, 0x1E00),
        _ => 0xFE00 + offset(random, 0x100),
    }
}

fn word_index(random: &mut Random) -> u16 {
    match random.below(4) {
        0 => random.pick(&SEAMS),
        1 => register(random),
        2 => random.pick(&[0xFF51, 0xFF53, 0xFF54, 0xFF54, 0xFF55, 0xFF68, 0xFF6A]),
        _ => index(random),
    }
}

/// Below a length: near the start, near the end, or anywhere.
fn offset(random: &mut Random, length: u16) -> u16 {
    match random.below(4) {
        0 => random.below(4) as u16,
        1 => random.below(0x80) as u16,
        2 => length - 1 - random.below(0x20) as u16,
        _ => random.below(length.into()) as u16,
    }
}

/// The mapper's control bytes.
fn cartridge(list: &mut List, random: &mut Random) {
    let start = random.pick(&[0x0000, 0x0000, 0x2000, 0x2100, 0x3000, 0x4000, 0x6000]);
    let place = random.pick(&[0x0000, 0x0001, 0x00FF, 0x0100, 0x1E00]);
    let value = if start == 0x0000 && !random.once_in(4) {
        0x0A
    } else {
        value(random)
    };
    list.write(start + place, value);
    list.read(0x4000 + offset(random, 0x4000));
}

fn save(list: &mut List, random: &mut Random) {
    // Sixteen RAM banks are many: often another is selected first, and RAM is on.
    if list.host.shape.code == 4 && random.once_in(2) {
        list.write_all(&[(0x0000, 0x0A), (0x4000, random.any_byte())]);
    }
    let length = random.pick(&[0x200, 0x2000]);
    let index = 0xA000 + offset(random, length);
    if random.once_in(3) {
        list.read(index);
    } else {
        list.both(index, random.byte());
    }
}

/// Addresses, or some of them, then FF55 or a block.
fn transfer(list: &mut List, random: &mut Random) {
    if !random.once_in(4) {
        let high = random.pick(&SOURCES);
        list.write(
            0xFF51,
            if random.once_in(3) {
                random.any_byte()
            } else {
                high
            },
        );
    }
    if !random.once_in(4) {
        let high = random.pick(&[0x00, 0x01, 0x0F, 0x18, 0x1E, 0x1F, 0x1F, 0x9F]);
        let low = random.pick(&[0x00, 0x10, 0x50, 0xE0, 0xF0, 0xFF]);
        list.write_word(0xFF53, u16::from_be_bytes([low, high]));
    }
    if random.once_in(2) {
        let low = random.byte();
        list.write(0xFF52, low);
    }
    for _ in 0..=random.below(3) {
        match random.below(6) {
            0 => list.transfer(random.byte()),
            1 => list.transfer(0x80 | random.below(4) as u8),
            2 => {
                list.call('H', &[]);
            }
            _ => list.transfer(random.pick(&[0x00, 0x01, 0x02, 0x07, 0x1F, 0x7F])),
        }
    }
    list.read(random.pick(&[0xFF51, 0xFF52, 0xFF53, 0xFF54, 0xFF55]));
    list.read(0x8000 + offset(random, 0x2000));
}

fn palette(list: &mut List, random: &mut Random) {
    let select = random.pick(&[0xFF68, 0xFF6A]);
    list.write(select, random.byte());
    for _ in 0..=random.below(4) {
        list.write(select + 1, random.byte());
        list.load(select + 1);
    }
    list.read(select);
}

fn timer(list: &mut List, random: &mut Random) {
    if random.once_in(2) {
        list.write(0xFF07, random.byte() | (4 * random.flag()));
        list.write_word(
            0xFF05,
            u16::from_be_bytes([random.byte(), 0xFF - random.below(4) as u8]),
        );
    }
    let cycles = match random.below(5) {
        0 => random.below(65_537),
        1 => random.pick(&[0, 1, 255, 256, 65_535, 65_536]),
        2 => random.pick(&[15, 16, 17, 63, 64, 1023, 1024]),
        _ => random.below(300),
    };
    list.timer(cycles);
    list.read(random.pick(&[0xFF04, 0xFF05, 0xFF0F]));
}

fn buttons(list: &mut List, random: &mut Random) {
    let button = random.below(8) as u8;
    match random.below(8) {
        0..=2 => list.call('P', &[button]),
        3 => list.call('L', &[button]),
        4..=5 => list.call('U', &[]),
        6 => list.call('J', &[random.byte()]),
        _ => list.call(random.pick(&['A', 'E']), &[]),
    };
    if random.once_in(3) {
        list.write(0xFF00, random.pick(&[0x00, 0x10, 0x20, 0x30]));
        list.read(0xFF00);
    }
}

fn screen(list: &mut List, random: &mut Random) {
    if random.once_in(2) {
        host(list, random);
    }
    let letter = random.pick(&['a', 'b', 'b', 'c', 'd', 'd', 'e', 'e', 'f', 'g', 'h']);
    let line = list.host.bus.scan_line;
    match letter {
        'd' if random.once_in(2) => list.call('d', &[line]),
        'a'..='d' => list.call(letter, &[value(random)]),
        _ => list.call(letter, &[]),
    };
    list.read(random.pick(&[0xFF0F, 0xFF40, 0xFF41, 0xFF44, 0xFF45]));
}

/// The host's eight numbers, often such that a comparison holds.
fn host(list: &mut List, random: &mut Random) {
    let line = match random.below(3) {
        0 => list.host.bus.load(0xFF45),
        1 => random.pick(&LINES),
        _ => random.any_byte(),
    };
    let signal = if random.once_in(2) { 0 } else { random.byte() };
    let mode = if random.once_in(5) {
        random.any_byte()
    } else {
        random.below(4) as u8
    };
    let disabled = u8::from(random.once_in(4));
    let mut numbers = [0; 4];
    for number in &mut numbers {
        *number = match random.below(4) {
            0..=1 => 0,
            2 => random.pick(&[1, -1, 144, 244, i32::MAX, i32::MIN]),
            _ => random.below(u32::MAX) as i32,
        };
    }
    list.host([disabled, line, signal, mode], numbers);
}

fn raw(list: &mut List, random: &mut Random) {
    let index = register(random);
    if random.once_in(2) {
        list.load(index);
    } else {
        list.store(index, random.byte());
        list.read(index);
    }
}

fn interrupts(list: &mut List, random: &mut Random) {
    let interrupt = random.below(5) as u8;
    match random.below(4) {
        0 => list.call('Q', &[interrupt]),
        1 => list.call('X', &[interrupt]),
        _ => list.call('I', &[]),
    };
    if random.once_in(3) {
        list.write(0xFFFF, random.byte());
        list.call('I', &[]);
    }
}
