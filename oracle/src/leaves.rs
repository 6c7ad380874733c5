//! The parts by themselves: a letter for each call, with its inputs and the
//! Rust's answer to one.

mod bits;
pub mod interrupts;
pub mod joypad;
mod mappers;
pub mod timer;

use std::io::{self, Error, Write};

use crate::corners::CORNERS;
use crate::hex;
use crate::machine::Machine;
use crate::random::Random;

pub type Bytes = Vec<u8>;

/// One call of the Rust's.
pub struct Letter {
    pub name: char,
    /// Inputs at the ends of ranges, all inputs where they are few.
    pub edges: fn() -> Vec<Bytes>,
    pub random: fn(&mut Random) -> Bytes,
    /// The Rust's answer, from the input's bytes as they are printed.
    pub answer: fn(&mut Machine, &[u8]) -> Bytes,
    /// What the recorded sample has besides, whole.
    pub always: fn() -> Vec<Bytes>,
    /// How many edges, and how many random inputs, the recorded sample takes.
    pub recorded: (usize, usize),
}

const LETTERS: [Letter; 9] = [
    bits::BIT,
    timer::UPDATE,
    joypad::PRESS,
    joypad::RELEASE,
    joypad::UPDATE,
    joypad::READ,
    mappers::WRITE,
    mappers::READ,
    interrupts::INTERRUPTS,
];

const RECORDED_SEED: u64 = 33;

/// Corners, all edges and `count` random inputs of every letter.
pub fn print(seed: u64, count: usize, out: &mut dyn Write) -> io::Result<()> {
    let mut machine = Machine::new();
    for letter in &LETTERS {
        let edges = (letter.edges)();
        letter.list(&mut machine, &edges, seed, count, out)?;
    }
    Ok(())
}

/// Corners, what is always there, some edges and some random inputs of every letter.
pub fn record(out: &mut dyn Write) -> io::Result<()> {
    let mut machine = Machine::new();
    for letter in &LETTERS {
        let (some, count) = letter.recorded;
        let mut edges = (letter.always)();
        edges.extend(sample((letter.edges)(), some, letter.name));
        letter.list(&mut machine, &edges, RECORDED_SEED, count, out)?;
    }
    Ok(())
}

impl Letter {
    fn list(
        &self,
        machine: &mut Machine,
        edges: &[Bytes],
        seed: u64,
        count: usize,
        out: &mut dyn Write,
    ) -> io::Result<()> {
        for corner in CORNERS {
            let (input, output) = parts(corner);
            if corner.starts_with(self.name) {
                let answer = (self.answer)(machine, &input);
                if answer != output {
                    let got = hex::digits(&answer);
                    return Err(Error::other(format!("{corner}: the Rust gives {got}")));
                }
                hex::line(self.name, &input, &answer, out)?;
            }
        }
        for input in edges {
            let answer = (self.answer)(machine, input);
            hex::line(self.name, input, &answer, out)?;
        }
        let mut random = Random::new(seed, self.name);
        for _ in 0..count {
            let input = (self.random)(&mut random);
            let answer = (self.answer)(machine, &input);
            hex::line(self.name, &input, &answer, out)?;
        }
        Ok(())
    }
}

/// So many of a list, evenly drawn and in its order.
fn sample(list: Vec<Bytes>, mut wanted: usize, name: char) -> Vec<Bytes> {
    let mut random = Random::new(!RECORDED_SEED, name);
    let mut left = list.len();
    let mut chosen = Vec::new();
    for input in list {
        if random.below(left as u32) < wanted as u32 {
            chosen.push(input);
            wanted -= 1;
        }
        left -= 1;
    }
    chosen
}

/// Input and output of a line.
pub fn parts(line: &str) -> (Bytes, Bytes) {
    let mut words = line.split(' ').skip(1).map(hex::bytes);
    (words.next().unwrap(), words.next().unwrap())
}
