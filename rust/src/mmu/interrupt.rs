//! Interrupts.

/// The interrupts, by their bits in FF0F and FFFF. The lowest is served first.
#[derive(Clone, Copy, Debug, PartialEq, Eq)]
#[repr(u8)]
pub enum Interrupt {
    /// The screen's last line is drawn.
    Vblank = 0,
    /// What the screen's status asks for: a mode, or a line.
    Lcd = 1,
    /// TIMA overflowed.
    Timer = 2,
    /// A byte came over the cable; the host requests it.
    Serial = 3,
    /// A button went down.
    Joypad = 4,
}

impl Interrupt {
    /// By its number; `None` for 5, which says that none waits.
    #[inline]
    pub(crate) fn from_number(number: u16) -> Option<Interrupt> {
        use Interrupt::*;
        [Vblank, Lcd, Timer, Serial, Joypad].get(usize::from(number)).copied()
    }
}
