//! T: DIV, TIMA, TMA, TAC and FF0F as stored, div_cycles, tima_cycles (2 bytes),
//! cycles (4). Gives all but the cycles after the update.

pub mod dense;
mod reached;

use gameboy_core::mmu::{
    DIVIDER_INDEX, INTERRUPT_FLAGS_INDEX, SELECTABLE_TIMER_INDEX, TIMER_CONTROL_INDEX,
    TIMER_RESET_INDEX,
};

use super::{Bytes, Letter};
use crate::hex;
use crate::machine::Machine;
use crate::random::Random;

pub const UPDATE: Letter = Letter {
    name: 'T',
    edges,
    random,
    answer,
    always: Vec::new,
    recorded: (480, 320),
};

/// In the order of the input's first five bytes.
const REGISTERS: [u16; 5] = [
    DIVIDER_INDEX,
    SELECTABLE_TIMER_INDEX,
    TIMER_RESET_INDEX,
    TIMER_CONTROL_INDEX,
    INTERRUPT_FLAGS_INDEX,
];

const PERIODS: [u32; 4] = [1024, 16, 64, 256];

pub const MOST_CYCLES: u32 = 65_536;

fn answer(machine: &mut Machine, input: &[u8]) -> Bytes {
    let bus = &mut machine.bus;
    for (at, index) in REGISTERS.into_iter().enumerate() {
        bus.store(index, input[at]);
    }
    bus.div_cycles = input[5].into();
    bus.tima_cycles = hex::word(&input[6..8]).into();
    let cycles = u32::from_be_bytes([input[8], input[9], input[10], input[11]]);
    machine.timer.update(cycles as i32, bus);

    let mut output: Bytes = REGISTERS.into_iter().map(|index| bus.load(index)).collect();
    output.push(bus.div_cycles.try_into().expect("div_cycles in range"));
    let tima_cycles: u16 = bus.tima_cycles.try_into().expect("tima_cycles in range");
    output.extend(tima_cycles.to_be_bytes());
    output
}

#[derive(Clone, Copy)]
struct Case {
    div: u8,
    tima: u8,
    tma: u8,
    tac: u8,
    flags: u8,
    div_cycles: u8,
    tima_cycles: u16,
    cycles: u32,
}

/// A fresh monochrome bus, updated by nothing.
const FRESH: Case = Case {
    div: 0xD3,
    tima: 0x00,
    tma: 0x00,
    tac: 0xF8,
    flags: 0xE1,
    div_cycles: 0,
    tima_cycles: 0,
    cycles: 0,
};

impl Case {
    fn bytes(self) -> Bytes {
        let mut bytes = vec![
            self.div,
            self.tima,
            self.tma,
            self.tac,
            self.flags,
            self.div_cycles,
        ];
        bytes.extend(self.tima_cycles.to_be_bytes());
        bytes.extend(self.cycles.to_be_bytes());
        bytes
    }

    /// The same with cycles that bring tima_cycles to just below, at and just
    /// above a total; those that no call can have are left out.
    fn around(self, total: u32) -> impl Iterator<Item = Case> {
        let start = u32::from(self.tima_cycles);
        (total - 1..=total + 1)
            .filter_map(move |sum| sum.checked_sub(start))
            .filter(|cycles| *cycles <= MOST_CYCLES)
            .map(move |cycles| Case { cycles, ..self })
    }
}

fn edges() -> Vec<Bytes> {
    let mut list = Vec::new();

    // DIV: its steps and its wrapping, the timer off.
    for div in [0x00, 0x01, 0x7F, 0x80, 0xFE, 0xFF] {
        for div_cycles in [0, 1, 127, 128, 254, 255] {
            for cycles in [
                0, 1, 2, 127, 128, 254, 255, 256, 257, 511, 512, 65_279, 65_280, 65_281, 65_535,
                65_536,
            ] {
                list.push(Case {
                    div,
                    div_cycles,
                    cycles,
                    ..FRESH
                });
            }
        }
    }

    // Every TAC about the first and the second step of its period.
    for tac in 0..=255 {
        let period = PERIODS[usize::from(tac & 3)];
        let case = Case {
            tac,
            tima: 0xFE,
            tma: 0xF0,
            ..FRESH
        };
        list.extend(case.around(period));
        list.extend(case.around(2 * period));
    }

    for tac in 4..8 {
        let period = PERIODS[usize::from(tac & 3)];

        // What is left of an earlier period, longer ones too.
        for tima_cycles in [
            0, 1, 14, 15, 16, 17, 62, 63, 64, 65, 254, 255, 256, 257, 1007, 1008, 1022, 1023,
        ] {
            for tima in [0x00, 0xFE, 0xFF] {
                let case = Case {
                    tac,
                    tima,
                    tma: 0xFD,
                    tima_cycles,
                    ..FRESH
                };
                for cycles in [0, 1, 65_535, 65_536] {
                    list.push(Case { cycles, ..case });
                }
                for steps in [1, 2, 3, 4, 17, 64] {
                    list.extend(case.around(steps * period));
                }
            }
        }

        // Every TIMA about its overflow.
        for tima in 0..=255 {
            let steps = 256 - u32::from(tima);
            list.extend(
                Case {
                    tac,
                    tima,
                    tma: tima,
                    ..FRESH
                }
                .around(steps * period),
            );
        }

        // Every TMA: one reload, and as many as there can be.
        for tma in 0..=255 {
            let case = Case {
                tac,
                tima: 0xFF,
                tma,
                ..FRESH
            };
            list.push(Case {
                cycles: period,
                ..case
            });
            list.push(Case {
                cycles: MOST_CYCLES,
                tima_cycles: 1023,
                ..case
            });
        }

        // Every FF0F, with a request and without.
        for flags in 0..=255 {
            let case = Case {
                tac,
                flags,
                tima: 0xFF,
                tma: 0x3C,
                ..FRESH
            };
            list.push(Case {
                cycles: period,
                ..case
            });
            list.push(Case {
                cycles: period - 1,
                ..case
            });
        }
    }

    list.into_iter().map(Case::bytes).collect()
}

fn random(random: &mut Random) -> Bytes {
    // Mostly running, and often near its end.
    let tac = if random.once_in(4) {
        random.byte()
    } else {
        random.any_byte() | 0x04
    };
    let period = PERIODS[usize::from(tac & 3)];
    let tima_cycles = if random.once_in(4) {
        random.below(1024)
    } else {
        random.below(period)
    };
    let cycles = match random.below(6) {
        0 => random.below(MOST_CYCLES + 1),
        1 => random.below(4),
        2 => random.below(256),
        3 => random.below(2048),
        4 => (period * (1 + random.below(3)) + random.below(3)).saturating_sub(tima_cycles + 1),
        _ => MOST_CYCLES - random.below(2048),
    };
    let case = Case {
        div: random.byte(),
        tima: if random.once_in(3) {
            0xFF - random.below(4) as u8
        } else {
            random.byte()
        },
        tma: random.byte(),
        tac,
        flags: random.byte(),
        div_cycles: random.byte(),
        tima_cycles: tima_cycles as u16,
        cycles,
    };
    case.bytes()
}
