//! An engine's loop on the Rust's bus and on ours, for bench/loop.
//!
//!     play digests STEPS        what the game has read and what the memories hold after so many steps, loop by loop
//!     play LOOP STEPS           one loop, between the marks of bench/instructions

mod bus;
mod engine;
mod game;
mod lazy;
mod literal;

use std::env;

use bench::marks::{count_from, count_to};
use bench::sides::{Ours, Theirs};
use bus::Bus;
use game::Step;

/// After the steps: a sum of what the game has read, and a digest of the memories if it is asked for.
type Play = fn(&[Step], bool) -> (u32, u64);

const LOOPS: [(&str, Play); 3] = [
    ("gameboy_core", |steps, digest| play(&mut Theirs::new(), steps, digest, literal::play)),
    ("literal", |steps, digest| play(&mut Ours::new(), steps, digest, literal::play)),
    ("lazy", |steps, digest| play(&mut Ours::new(), steps, digest, lazy::play)),
];

fn main() {
    let words: Vec<String> = env::args().skip(1).collect();
    let [what, count] = &words[..] else { panic!("play digests|LOOP STEPS") };
    let steps = game::steps(count.parse().expect("a number of steps"));
    if what == "digests" {
        let digests = LOOPS.map(|(name, play)| (name, play(&steps, true)));
        for (name, (seen, memories)) in digests {
            println!("{name} {seen:08X} {memories:08X}");
        }
        assert!(digests.iter().all(|(_, digest)| *digest == digests[0].1), "the loops differ");
    } else {
        let (name, play) = LOOPS.iter().find(|(name, _)| name == what).expect("a loop's name");
        println!("{name} {}", steps.len());
        play(&steps, false);
    }
}

fn play<B: Bus>(bus: &mut B, steps: &[Step], digest: bool, play: fn(&mut B, &[Step]) -> u32) -> (u32, u64) {
    for (index, value) in game::FIRST {
        bus.write_byte(index, value);
    }
    bus.update_joypad();
    count_from();
    let seen = play(bus, steps);
    count_to();
    (seen, if digest { digest_of(bus) } else { 0 })
}

/// Of VRAM, WRAM, save, OAM, registers and the screen's numbers: as oracle/ has it.
fn digest_of<B: Bus>(bus: &B) -> u64 {
    let numbers = bus.numbers();
    let mut bytes = bus.memories().concat();
    bytes.extend((0xFE00..=0xFEFF).map(|index| bus.read_byte(index)));
    bytes.extend((0xFF00..=0xFFFF).map(|index| bus.load(index)));
    bytes.extend([numbers.screen_disabled.into(), numbers.scan_line, numbers.irq48_signal, numbers.lcd_status_mode]);
    bytes.extend([numbers.screen_enable_delay_cycles, numbers.cycles_counter].map(i32::to_be_bytes).concat());
    bytes.iter().fold(0, |sum, byte| (sum * 257 + u64::from(*byte) + 1) % 4_294_967_291)
}
