//! What is measured: the same calls on both sides, some number of times.

use std::hint::black_box;
use std::sync::OnceLock;

use bench::pattern::{Access, Pattern};
use bench::sides::{Ours, Theirs, RECORD_LEN};

pub struct Case {
    pub name: &'static str,
    /// How many are counted.
    pub turns: u32,
    pub ours: fn(&mut Ours, u32),
    pub theirs: fn(&mut Theirs, u32),
}

/// A case from what one turn does on either side.
macro_rules! case {
    ($name:literal, |$ours:ident| $our:expr, |$theirs:ident| $their:expr) => {
        case! { $name, 100, |$ours| $our, |$theirs| $their }
    };
    ($name:literal, $turns:literal, |$ours:ident| $our:expr, |$theirs:ident| $their:expr) => {
        Case {
            name: $name,
            turns: $turns,
            ours: |$ours, turns| {
                for _ in 0..turns {
                    let _ = black_box($our);
                }
            },
            theirs: |$theirs, turns| {
                for _ in 0..turns {
                    let _ = black_box($their);
                }
            },
        }
    };
}

/// A busy frame: an access and a timer update at each of the processor's 17,556 turns, both tile maps read, an OAM DMA, eight blocks of HDMA.
macro_rules! frame {
    ($side:ident) => {{
        for access in accesses() {
            match *access {
                Access::Read(index) => {
                    black_box($side.memory.read_byte(index));
                }
                Access::Write(index, value) => {
                    let _ = black_box($side.memory.write_byte(index, value));
                }
            }
            let _ = black_box($side.timer.update(4, &mut $side.memory));
        }
        for index in 0x9800..=0x9FFF {
            black_box($side.memory.read_byte(index));
        }
        $side.memory.do_dma_transfer(0xC1);
        for (index, value) in HDMA {
            let _ = black_box($side.memory.write_byte(index, value));
        }
        for _ in 0..8 {
            black_box($side.memory.do_hdma());
        }
    }};
}

pub const CASES: [Case; 13] = [
    case! { "read, ROM",
        |o| o.memory.read_byte(black_box(0x4123)),
        |t| t.memory.read_byte(black_box(0x4123))
    },
    case! { "read, WRAM",
        |o| o.memory.read_byte(black_box(0xC123)),
        |t| t.memory.read_byte(black_box(0xC123))
    },
    case! { "read, register FF0F",
        |o| o.memory.read_byte(black_box(0xFF0F)),
        |t| t.memory.read_byte(black_box(0xFF0F))
    },
    case! { "write, WRAM",
        |o| o.memory.write_byte(black_box(0xC123), 0x56).unwrap(),
        |t| t.memory.write_byte(black_box(0xC123), 0x56)
    },
    case! { "write, save, with its log record",
        |o| save_write(o),
        |t| t.memory.write_byte(black_box(0xA123), 0x56)
    },
    case! { "timer update by 4",
        |o| o.timer.update(black_box(4), &mut o.memory).unwrap(),
        |t| t.timer.update(black_box(4), &mut t.memory)
    },
    case! { "timer update by 65,536, period 16",
        |o| o.timer.update(black_box(65536), &mut o.memory).unwrap(),
        |t| t.timer.update(black_box(65536), &mut t.memory)
    },
    case! { "OAM DMA, 160 bytes",
        |o| o.memory.do_dma_transfer(black_box(0xC0)),
        |t| t.memory.do_dma_transfer(black_box(0xC0))
    },
    case! { "GDMA, 2,048 bytes, and its four address writes",
        |o| black_box(GDMA).map(|(index, value)| o.memory.write_byte(index, value).unwrap()),
        |t| black_box(GDMA).map(|(index, value)| t.memory.write_byte(index, value))
    },
    case! { "press, joypad update, release",
        |o| {
            o.controller.press(black_box(pouchrattle::Button::A));
            o.controller.update(&mut o.memory);
            o.controller.release(black_box(pouchrattle::Button::A));
        },
        |t| {
            t.controller.press(black_box(gameboy_core::button::Button::A));
            t.controller.update(&mut t.memory);
            t.controller.release(black_box(gameboy_core::button::Button::A));
        }
    },
    case! { "recovery, log of 65,535 bytes (*)",
        |o| pouchrattle::recover(&mut o.recovery.save, black_box(&o.recovery.log)).unwrap(),
        |t| assert!(plain_recovery(&mut t.recovery.save, black_box(&t.recovery.log)))
    },
    case! { "a frame's load (**)", 1,
        |o| frame!(o),
        |t| frame!(t)
    },
    case! { "the same, the timer told when it is due (***)", 1,
        |o| lazy_frame(o),
        |t| frame!(t)
    },
];

/// The frame's load by the calls that are there for it: the timer is told when TIMA overflows or a read of its registers comes, and the tile maps are read
/// as a block.
fn lazy_frame(side: &mut Ours) {
    let mut untold = 0;
    let mut wait = side.memory.cycles_to_overflow().unwrap_or(LONGEST_WAIT);
    for access in accesses() {
        match *access {
            Access::Read(index) => {
                if TIMER.contains(&index) {
                    wait = told(side, &mut untold);
                }
                black_box(side.memory.read_byte(index));
            }
            Access::Write(index, value) => {
                let _ = black_box(side.memory.write_byte(index, value));
            }
        }
        untold += 4;
        if wait.min(LONGEST_WAIT) <= untold {
            wait = told(side, &mut untold);
        }
    }
    told(side, &mut untold);
    let mut maps = [0; 0x800];
    side.memory.read_block(0x9800, black_box(&mut maps)).unwrap();
    black_box(maps);
    side.memory.do_dma_transfer(0xC1);
    for (index, value) in HDMA {
        let _ = black_box(side.memory.write_byte(index, value));
    }
    for _ in 0..8 {
        black_box(side.memory.do_hdma());
    }
}

/// Tells the timer, and says how many cycles are left until TIMA overflows.
fn told(side: &mut Ours, untold: &mut u32) -> u32 {
    side.memory.update_timer(*untold).unwrap();
    *untold = 0;
    side.memory.cycles_to_overflow().unwrap_or(LONGEST_WAIT)
}

const TIMER: std::ops::RangeInclusive<u16> = 0xFF04..=0xFF07;

/// Fewer than the 65,536 that an update may be told of.
const LONGEST_WAIT: u32 = 60_000;

/// From 0100 to 8000.
const GDMA: [(u16, u8); 5] = [(0xFF51, 0x01), (0xFF52, 0x00), (0xFF53, 0x00), (0xFF54, 0x00), (0xFF55, 0x7F)];

/// Its addresses alone.
const HDMA: [(u16, u8); 4] = [(0xFF51, 0x01), (0xFF52, 0x00), (0xFF53, 0x00), (0xFF54, 0x00)];

fn accesses() -> &'static [Access] {
    static ACCESSES: OnceLock<Vec<Access>> = OnceLock::new();
    ACCESSES.get_or_init(|| {
        let mut pattern = Pattern::new();
        (0..17_556).map(|_| pattern.access()).collect()
    })
}

/// With the log taken off when it is full.
fn save_write(ours: &mut Ours) {
    while ours.memory.write_byte(black_box(0xA123), 0x56).is_err() {
        black_box(ours.memory.take_log());
    }
}

/// The Rust has no recovery: what an engine would write by hand.
fn plain_recovery(save: &mut [u8], log: &[u8]) -> bool {
    let whole = || log.chunks_exact(RECORD_LEN).map(|record| u32::from_be_bytes([record[0], record[1], record[2], record[3]]));
    let address = |record: u32| (record >> 14 & 0x1FFFF) as usize;
    if whole().any(|record| record & 0x8000_003F != 0x8000_0000 || save.len() <= address(record)) {
        return false;
    }
    for record in whole() {
        save[address(record)] = (record >> 6) as u8;
    }
    true
}
