//! The timer beside a model of document 01's rules that goes step by step: every TIMA with every TMA and every period, about the first two overflows.

mod common;

use pouchrattle::{Memory, Timer};

const PERIODS: [u32; 4] = [1024, 16, 64, 256];

/// The bus; 256 x DIV + `div_cycles`; `tima_cycles`; and how many updates began with a whole period or more.
struct Both {
    memory: Memory,
    div: u16,
    tima_cycles: u32,
    late: u32,
}

impl Both {
    /// Sets TIMA, TMA and a TAC that counts, updates, and compares. What is left of DIV's period shows in the updates that follow.
    fn update(&mut self, [mut tima, tma, tac]: [u8; 3], cycles: u32) {
        for (index, byte) in [(0xFF05, tima), (0xFF06, tma), (0xFF07, tac), (0xFF0F, 0)] {
            self.memory.store(index, byte).unwrap();
        }
        Timer::new().update(cycles as i32, &mut self.memory).unwrap();

        let (period, mut flags) = (PERIODS[usize::from(tac & 3)], 0);
        self.late += u32::from(self.tima_cycles >= period);
        self.div = self.div.wrapping_add(cycles as u16);
        self.tima_cycles += cycles;
        while self.tima_cycles >= period {
            self.tima_cycles -= period;
            tima = tima.wrapping_add(1);
            if tima == 0 {
                (tima, flags) = (tma, 0x04);
            }
        }
        let registers = [0xFF04, 0xFF05, 0xFF06, 0xFF07, 0xFF0F].map(|index| self.memory.load(index).unwrap());
        assert_eq!(registers, [(self.div >> 8) as u8, tima, tma, tac, flags], "{cycles}");
        assert_eq!(self.memory.cycles_to_overflow(), Some((256 - u32::from(tima)) * period - self.tima_cycles), "{cycles}");
    }
}

#[test]
fn step_by_step() {
    let mut both = Both { memory: common::monochrome(), div: 0xD300, tima_cycles: 0, late: 0 };
    for (pair, low) in (0..=u16::MAX).flat_map(|pair| (4..8).map(move |low| (pair, low))) {
        let [tima, tma] = pair.to_be_bytes();
        let period = PERIODS[usize::from(low & 3)];
        let first = (256 - u32::from(tima)) * period;
        let second = first + (256 - u32::from(tma)) * period;
        for end in [0, first - 1, first, first + 1, second - 1, second, second + 1] {
            // The longest period leaves any remainder: the present one may be shorter.
            both.update([0, 0, 0x04], u32::from(pair) % 1021);
            let cycles = end.saturating_sub(both.tima_cycles).min(65_536);
            both.update([tima, tma, tima.wrapping_add(tma) << 3 | low], cycles);
        }
    }
    assert!(100_000 < both.late);
}
