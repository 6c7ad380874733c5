//! A dense list of the timer: every TIMA with every TMA and each of TAC's low three
//! bits, at its overflows. Always the same.

use std::io::{self, Write};

use super::reached::Reached;
use super::{answer, Case, FRESH, MOST_CYCLES, PERIODS, UPDATE};
use crate::hex;
use crate::machine::Machine;
use crate::random::Random;

/// tima_cycles to begin with, about each period's end: what is left of the present
/// one, or of a longer one before it. Eleven, so that each comes with every TAC.
const STARTS: [u16; 11] = [0, 1, 15, 16, 17, 63, 64, 255, 256, 1007, 1023];

const SEED: u64 = 4;

/// The lines to `out`; to `told` what they reach, and an error where that is not all.
pub fn print(out: &mut dyn Write, told: &mut dyn Write) -> io::Result<()> {
    let mut machine = Machine::new();
    let mut random = Random::new(SEED, UPDATE.name);
    let mut reached = Reached::new();
    for low in 0..8 {
        for pair in 0..=u16::MAX {
            let [tima, tma] = pair.to_be_bytes();
            let case = Case {
                tima,
                tma,
                tac: low | tima.wrapping_add(tma) << 3,
                tima_cycles: STARTS[usize::from(pair) % STARTS.len()],
                ..FRESH
            };
            for cycles in case.counts() {
                let input = Case {
                    div: random.byte(),
                    flags: random.byte(),
                    div_cycles: random.byte(),
                    cycles,
                    ..case
                }
                .bytes();
                let output = answer(&mut machine, &input);
                hex::line(UPDATE.name, &input, &output, out)?;
                reached.look(&input, &output);
            }
        }
    }
    reached.report(told)
}

impl Case {
    /// Cycles: none, the most, and those about the first three overflows and about
    /// the last that a call can reach.
    fn counts(self) -> Vec<u32> {
        if self.tac & 4 == 0 {
            return vec![0, 1, 255, 256, MOST_CYCLES];
        }
        let period = PERIODS[usize::from(self.tac & 3)];
        let first = 256 - u32::from(self.tima);
        let next = 256 - u32::from(self.tma);
        let mut steps = vec![first, first + next, first + 2 * next];
        let most = (u32::from(self.tima_cycles) + MOST_CYCLES) / period;
        if first <= most {
            steps.push(most - (most - first) % next);
        }
        let mut counts = vec![0, MOST_CYCLES];
        for steps in steps {
            counts.extend(self.around(steps * period).map(|case| case.cycles));
        }
        counts.sort_unstable();
        counts.dedup();
        counts
    }
}
