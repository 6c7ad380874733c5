//! What the dense list must reach, read off its lines: where an overflow is, the Rust's
//! answers say.

use std::io::{self, Error, Write};

use super::{MOST_CYCLES, PERIODS};
use crate::hex;

/// TIMA, TMA and TAC's low three bits.
const CASES: usize = 8 << 16;

/// Those of them that an update can bring to an overflow: all that count with the
/// periods 16, 64 and 256, and TIMA from C0 on with 1024.
const OVERFLOWING: usize = (3 << 16) + (0x40 << 8);

/// The list is always the same: fewer lines have lost some.
const LINES: usize = 3_824_290;

pub struct Reached {
    lines: usize,
    /// Which cases there are; how many with no cycles, and how many with the most.
    cases: Vec<bool>,
    none: usize,
    most: usize,
    /// For each TAC, lines, and overflows between two lines.
    tacs: [usize; 256],
    overflows: [usize; 256],
    /// How many cases have two lines one cycle apart about their last overflow.
    last: usize,
    /// For each period, updates that begin with as many cycles or more, and those from
    /// the second such overflow on.
    late: [usize; 4],
    twice: [usize; 4],
    before: Line,
}

/// A line; how many overflows there were between those of its case up to here, and
/// with how many cycles the latest.
#[derive(Default)]
struct Line {
    case: Vec<u8>,
    cycles: u32,
    tima: u8,
    overflows: usize,
    latest: u32,
}

impl Reached {
    pub fn new() -> Reached {
        Reached {
            lines: 0,
            cases: vec![false; CASES],
            none: 0,
            most: 0,
            tacs: [0; 256],
            overflows: [0; 256],
            last: 0,
            late: [0; 4],
            twice: [0; 4],
            before: Line::default(),
        }
    }

    /// Looks at a line. Those of a case come together, their cycles rising.
    pub fn look(&mut self, input: &[u8], output: &[u8]) {
        let (tima, tma, tac) = (input[1], input[2], usize::from(input[3]));
        let cycles = u32::from_be_bytes([input[8], input[9], input[10], input[11]]);
        self.lines += 1;
        self.cases[(tac & 7) << 16 | usize::from(tima) << 8 | usize::from(tma)] = true;
        self.none += usize::from(cycles == 0);
        self.most += usize::from(cycles == MOST_CYCLES);
        self.tacs[tac] += 1;
        if tac & 4 == 0 {
            return;
        }

        let period = PERIODS[tac & 3];
        let mut line = Line {
            case: [&input[1..4], &input[6..8]].concat(),
            cycles,
            tima: output[1],
            ..Line::default()
        };
        if line.case == self.before.case {
            (line.overflows, line.latest) = (self.before.overflows, self.before.latest);
            // One cycle more, and a period is full: TIMA goes from FF to TMA.
            let full = cycles == self.before.cycles + 1 && hex::word(&output[6..8]) == 0;
            if full && self.before.tima == 0xFF && line.tima == tma {
                (line.overflows, line.latest) = (line.overflows + 1, cycles);
                self.overflows[tac] += 1;
            }
        }
        // It was the last where TIMA has since gone up from TMA by all its steps.
        let steps = (cycles - line.latest) / period;
        let last = cycles == MOST_CYCLES && steps + u32::from(tma) == u32::from(line.tima);
        self.last += usize::from(last && line.overflows > 0);
        self.late[tac & 3] += usize::from(u32::from(hex::word(&input[6..8])) >= period);
        self.twice[tac & 3] += usize::from(line.overflows > 1);
        self.before = line;
    }

    /// Tells how often, and fails where something was not reached.
    pub fn report(&self, told: &mut dyn Write) -> io::Result<()> {
        let cases = self.cases.iter().filter(|there| **there).count();
        let lines = self.tacs.into_iter().min().unwrap_or(0);
        let counting = (0..256).filter(|tac| tac & 4 != 0);
        let overflows = counting.map(|tac| self.overflows[tac]).min().unwrap_or(0);
        // No remainder is as long as the longest period.
        let [_, late @ ..] = self.late;
        let sum = |counts: &[usize]| counts.iter().sum::<usize>();
        writeln!(
            told,
            "{} lines; {cases} cases of TIMA, TMA and TAC's low three bits, {} with no cycles, \
             {} with the most, {} at the last overflow; every TAC in {lines} lines or more, where \
             it counts at {overflows} overflows or more; {} updates with tima_cycles at the period \
             or above, {} at least with more than one overflow",
            self.lines,
            self.none,
            self.most,
            self.last,
            sum(&late),
            sum(&self.twice)
        )?;
        if [cases, self.none, self.most] != [CASES; 3] || self.last != OVERFLOWING {
            return Err(Error::other("the list leaves a case out"));
        }
        if self.lines != LINES {
            return Err(Error::other("the list has other lines than it had"));
        }
        if [lines, overflows].contains(&0) || late.contains(&0) || self.twice.contains(&0) {
            return Err(Error::other("something was not reached"));
        }
        Ok(())
    }
}
