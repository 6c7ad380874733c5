//! The screen's counters.

/// The counters of the screen that the bus and the host's drawing part share. The Rust's fifth, `pixel_counter`, is the drawing part's own.
#[derive(Clone, Copy, Debug, Default, PartialEq, Eq)]
pub struct GpuCycles {
    /// Cycles of the current mode.
    pub cycles_counter: i32,
    /// Cycles of the current line in mode 1, in which no line is drawn.
    pub aux_cycles_counter: i32,
    /// Cycles until a screen that was switched on shows something.
    pub screen_enable_delay_cycles: i32,
    /// The line of the window that is drawn next.
    pub window_line: i32,
}

impl GpuCycles {
    /// All 0, as a fresh bus has them.
    pub const fn new() -> GpuCycles {
        GpuCycles { cycles_counter: 0, aux_cycles_counter: 0, screen_enable_delay_cycles: 0, window_line: 0 }
    }
}
