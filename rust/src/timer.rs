//! The timer.

use crate::{Memory, Refusal};

/// DIV and TIMA. Empty, as the Rust's own: its two counters are in the bus's state.
#[derive(Clone, Copy, Debug, Default)]
pub struct Timer {}

impl Timer {
    /// There is nothing to say of it.
    #[inline]
    pub const fn new() -> Timer {
        Timer {}
    }

    /// So many cycles have passed: DIV and TIMA step, and TIMA's overflow requests its interrupt. Refused by `TooManyCycles` over 65,536, and
    /// for a negative number. Many cycles take about as long as few.
    #[inline]
    pub fn update(&mut self, cycles: i32, memory: &mut Memory) -> Result<(), Refusal> {
        memory.update_timer(cycles as u32)
    }
}
