//! W: kind, log2 N, RAM code, ROM bank (2 bytes), RAM bank, mode, enabled, high
//! bits, index (2), value. Gives the five in the middle after the write, whether
//! a save byte was stored, its address (3) and value (0 and 0 if none was).
//! R: the same without the value. Gives the byte read, over the contents of
//! machine.rs.
//!
//! States keep to document 01, "State ranges", and for Mbc5 to document 02.

use gameboy_core::mmu::probe::Banks;

use super::{Bytes, Letter};
use crate::hex;
use crate::machine::{save_byte, Held, Machine, Shape, MBC1, MBC2, MBC5, ROM_ONLY};
use crate::random::Random;
use crate::unseen;

pub const WRITE: Letter = Letter {
    name: 'W',
    edges: write_edges,
    random: |random| {
        let state = State::random(random);
        let index = random_index(random);
        state.write(index, random_value(random))
    },
    answer: write_answer,
    always: || {
        let mut list = Vec::new();
        for state in sixteen_banks() {
            list.push(state.write(0x4000, 0xF0 - 0x10 * state.ram + 15 - state.ram));
            list.push(state.write(0xA000 + 0x222 * u16::from(state.ram), 0x5A));
        }
        list
    },
    recorded: (500, 440),
};

pub const READ: Letter = Letter {
    name: 'R',
    edges: read_edges,
    random: |random| {
        let state = State::random(random);
        state.read(random_index(random))
    },
    answer: read_answer,
    always: || {
        let read = |state: State| state.read(0xBFFF - 0x222 * u16::from(state.ram));
        sixteen_banks().map(read).collect()
    },
    recorded: (420, 170),
};

/// The ends of every window, and of the pages that Mbc2 tells apart.
const INDEX_EDGES: [u16; 22] = [
    0x0000, 0x00FF, 0x0100, 0x01FF, 0x0200, 0x1FFF, 0x2000, 0x20FF, 0x2100, 0x2FFF, 0x3000, 0x3FFF,
    0x4000, 0x5FFF, 0x6000, 0x7FFF, 0xA000, 0xA001, 0xA1FF, 0xA200, 0xBFFE, 0xBFFF,
];

const VALUE_EDGES: [u8; 17] = [
    0x00, 0x01, 0x02, 0x03, 0x0A, 0x0F, 0x10, 0x1A, 0x1F, 0x20, 0x3F, 0x40, 0x60, 0x7F, 0x80, 0xFA,
    0xFF,
];

fn shape(input: &[u8]) -> Shape {
    Shape {
        kind: input[0],
        log: input[1],
        code: input[2],
    }
}

fn banks(input: &[u8]) -> Banks {
    Banks {
        rom: hex::word(&input[3..5]).into(),
        ram: input[5].into(),
        mode: input[6] == 1,
        enabled: input[7] == 1,
        high: input[8].into(),
    }
}

/// The answer from the input's state: one, if that stands for several of the Rust's.
fn answer(machine: &mut Machine, input: &[u8], call: fn(&mut Held, &[u8]) -> Bytes) -> Bytes {
    let shape = shape(input);
    let held = machine.mapper(shape);
    let [first, second] = unseen::states(shape, banks(input)).map(|state| {
        held.mapper.set(&state);
        call(held, input)
    });
    assert_eq!(first, second, "what is not seen is seen: {input:02X?}");
    first
}

fn write_answer(machine: &mut Machine, input: &[u8]) -> Bytes {
    answer(machine, input, write)
}

fn read_answer(machine: &mut Machine, input: &[u8]) -> Bytes {
    answer(machine, input, |held, input| {
        vec![held.mapper.read_byte(hex::word(&input[9..11]))]
    })
}

fn write(held: &mut Held, input: &[u8]) -> Bytes {
    held.mapper.write_byte(hex::word(&input[9..11]), input[11]);
    let after = unseen::due(shape(input), held.mapper.get());
    let mut output: Bytes = (after.rom as u16).to_be_bytes().into();
    output.extend([
        after.ram as u8,
        after.mode.into(),
        after.enabled.into(),
        after.high as u8,
    ]);
    let stored = held.stored.take();
    match stored[..] {
        [] => output.extend([0; 5]),
        [(address, value)] => {
            let [top @ .., high, middle, low] = address.to_be_bytes();
            assert_eq!(top, [0; 5], "an address of three bytes");
            output.extend([1, high, middle, low, value]);
            // The byte must be in the save; then the contents are put back.
            let byte = &mut held.mapper.ram_mut()[address];
            assert_eq!(*byte, value, "told of another byte than was stored");
            *byte = save_byte(address);
        }
        _ => panic!("one write stored more than one byte"),
    }
    output
}

/// A mapper's part of the input.
#[derive(Clone, Copy)]
struct State {
    kind: u8,
    log: u8,
    code: u8,
    rom: u16,
    ram: u8,
    mode: u8,
    enabled: u8,
    high: u8,
}

impl State {
    fn start(kind: u8, log: u8, code: u8) -> State {
        State {
            kind,
            log,
            code,
            rom: 1,
            ram: 0,
            mode: 0,
            enabled: 0,
            high: 0,
        }
    }

    fn read(self, index: u16) -> Bytes {
        let mut bytes = vec![self.kind, self.log, self.code];
        bytes.extend(self.rom.to_be_bytes());
        bytes.extend([self.ram, self.mode, self.enabled, self.high]);
        bytes.extend(index.to_be_bytes());
        bytes
    }

    fn write(self, index: u16, value: u8) -> Bytes {
        let mut bytes = self.read(index);
        bytes.push(value);
        bytes
    }

    fn random(random: &mut Random) -> State {
        let kind = random.pick(&[
            ROM_ONLY, MBC1, MBC1, MBC1, MBC1, MBC2, MBC2, MBC2, MBC5, MBC5, MBC5, MBC5,
        ]);
        let mut log = 1 + random.below(most_log(kind).into()) as u8;
        // With the most banks Mbc5's ninth bit counts.
        if kind == MBC5 && random.once_in(3) {
            log = most_log(kind);
        }
        let code = match kind {
            MBC2 => 0,
            MBC5 => random.pick(&[0, 2, 3, 3, 4, 4, 4]),
            _ => random.pick(&[0, 2, 3, 3, 3]),
        };
        let mut state = State::start(kind, log, code);
        if kind == ROM_ONLY {
            return state;
        }
        state.rom = random.below(1 << log) as u16;
        if kind == MBC2 || code > 0 {
            state.enabled = u8::from(!random.once_in(3));
        }
        if kind == MBC1 {
            state.high = random.below(4) as u8;
        }
        if code >= 3 {
            state.mode = if kind == MBC1 { random.flag() } else { 0 };
            state.ram = random.below(ram_banks(code).into()) as u8;
        }
        state
    }
}

/// N at most: 2, 128, 16, 512.
fn most_log(kind: u8) -> u8 {
    [1, 7, 4, 9][usize::from(kind)]
}

/// Mbc5 with RAM code 4, each bank selected and enabled.
fn sixteen_banks() -> impl Iterator<Item = State> {
    (0..ram_banks(4)).map(|ram| State {
        ram,
        enabled: 1,
        ..State::start(MBC5, 1, 4)
    })
}

/// By the RAM code.
fn ram_banks(code: u8) -> u8 {
    [0, 0, 1, 4, 16][usize::from(code)]
}

/// All states, but of the ROM banks only first, second, middle and last.
fn states() -> Vec<State> {
    let mut list = Vec::new();
    for code in [0, 2, 3] {
        list.push(State::start(ROM_ONLY, 1, code));
    }
    for log in 1..=most_log(MBC2) {
        for rom in bank_edges(log) {
            for enabled in 0..2 {
                let start = State::start(MBC2, log, 0);
                list.push(State {
                    rom,
                    enabled,
                    ..start
                });
            }
        }
    }
    for log in 1..=most_log(MBC1) {
        for rom in bank_edges(log) {
            for high in 0..4 {
                for (code, ram, mode, enabled) in rams() {
                    let start = State::start(MBC1, log, code);
                    list.push(State {
                        rom,
                        high,
                        ram,
                        mode,
                        enabled,
                        ..start
                    });
                }
            }
        }
    }
    for log in 1..=most_log(MBC5) {
        for rom in bank_edges(log) {
            for (code, ram, enabled) in rams5() {
                let start = State::start(MBC5, log, code);
                list.push(State {
                    rom,
                    ram,
                    enabled,
                    ..start
                });
            }
        }
    }
    list
}

fn bank_edges(log: u8) -> Vec<u16> {
    let count = 1u16 << log;
    let mut list = vec![0, 1, count / 2, count - 1];
    list.dedup();
    list
}

/// Mbc1's RAM code, RAM bank, mode, enabled.
fn rams() -> Vec<(u8, u8, u8, u8)> {
    let mut list = vec![(0, 0, 0, 0), (2, 0, 0, 0), (2, 0, 0, 1)];
    for ram in 0..ram_banks(3) {
        for flags in 0..4 {
            list.push((3, ram, flags / 2, flags % 2));
        }
    }
    list
}

/// Mbc5's RAM code, RAM bank, enabled.
fn rams5() -> Vec<(u8, u8, u8)> {
    let mut list = vec![(0, 0, 0)];
    for code in [2, 3, 4] {
        for ram in 0..ram_banks(code) {
            list.extend([(code, ram, 0), (code, ram, 1)]);
        }
    }
    list
}

fn write_edges() -> Vec<Bytes> {
    let mut list = Vec::new();

    // Every state at every index; the values take turns.
    let mut turn = 0;
    for state in states() {
        for index in INDEX_EDGES {
            list.push(state.write(index, VALUE_EDGES[turn % VALUE_EDGES.len()]));
            turn += 1;
        }
    }

    // Every value in every window.
    for value in 0..=255 {
        for code in [0, 2, 3] {
            for index in INDEX_EDGES {
                list.push(State::start(ROM_ONLY, 1, code).write(index, value));
            }
        }
        for log in 1..=most_log(MBC2) {
            for index in INDEX_EDGES {
                for enabled in 0..2 {
                    let start = State::start(MBC2, log, 0);
                    list.push(State { enabled, ..start }.write(index, value));
                }
            }
        }
        for (code, mode, enabled) in [(0, 0, 0), (2, 0, 1), (3, 0, 1), (3, 1, 1)] {
            for index in [0x0000, 0x6000, 0xA000] {
                let start = State::start(MBC1, 7, code);
                list.push(
                    State {
                        mode,
                        enabled,
                        ..start
                    }
                    .write(index, value),
                );
            }
            for log in 1..=most_log(MBC1) {
                for high in 0..4 {
                    let start = State::start(MBC1, log, code);
                    let state = State {
                        high,
                        mode,
                        enabled,
                        ..start
                    };
                    list.push(state.write(0x2000, value));
                    list.push(state.write(0x4000, value));
                }
            }
        }
        // Some of the low eight bits count, all of them, and the ninth.
        for log in [1, 3, 8, 9] {
            for rom in bank_edges(log) {
                for (code, enabled) in [(0, 0), (2, 1), (3, 1), (4, 1)] {
                    let start = State::start(MBC5, log, code);
                    let state = State {
                        rom,
                        enabled,
                        ..start
                    };
                    for index in [
                        0x0000, 0x2000, 0x2FFF, 0x3000, 0x3FFF, 0x4000, 0x6000, 0xA000,
                    ] {
                        list.push(state.write(index, value));
                    }
                }
            }
        }
    }
    list
}

/// Every state at every index, and every ROM bank.
fn read_edges() -> Vec<Bytes> {
    let mut list = Vec::new();
    for state in states() {
        for index in INDEX_EDGES {
            list.push(state.read(index));
        }
    }
    for kind in [MBC1, MBC2, MBC5] {
        for log in 1..=most_log(kind) {
            for rom in 0..1 << log {
                let start = State::start(kind, log, 0);
                for index in [0x3FFF, 0x4000, 0x5678, 0x7FFF] {
                    list.push(State { rom, ..start }.read(index));
                }
            }
        }
    }
    list
}

/// Each window as often; Mbc2's 512 bytes and the edges more than the rest.
fn random_index(random: &mut Random) -> u16 {
    if random.once_in(5) {
        return random.pick(&INDEX_EDGES);
    }
    let start = random.pick(&[0x0000, 0x2000, 0x4000, 0x6000, 0xA000]);
    if start == 0xA000 && random.once_in(2) {
        return start + random.below(0x400) as u16;
    }
    start + random.below(0x2000) as u16
}

fn random_value(random: &mut Random) -> u8 {
    if random.once_in(4) {
        random.pick(&VALUE_EDGES)
    } else {
        random.any_byte()
    }
}
