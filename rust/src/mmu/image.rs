//! The image, and what an engine's drawing part takes from it.

/// The bytes of an image: POUCH_IMAGE_LEN.
pub const IMAGE_LEN: usize = 666;

/// A state of the bus, as documents 01 and 02 lay it out. Plain data: a host may store it, with the `version` beside it, and put it back by
/// `Memory::set_image`, which checks it. Images of version 2.0 have this length too, and another layout: only the version tells.
pub type Image = [u8; IMAGE_LEN];

/// The numbers of the screen that the bus and the host's drawing part share. The first four are fields of the Rust's `Memory`, the others
/// of its `GpuCycles`. Any values are taken.
#[derive(Clone, Copy, Debug, Default, PartialEq, Eq)]
pub struct HostNumbers {
    /// Whether the screen is off.
    pub screen_disabled: bool,
    /// The line that is drawn, 0 to 153, which FF44 reads.
    pub scan_line: u8,
    /// Which sources of the LCD interrupt hold now: bits 0, 1, 2 the modes, bit 3 the line that FF45 names.
    pub irq48_signal: u8,
    /// The screen's mode: 0 at a line's end, 1 between frames, 2 while sprites are searched, 3 while the line is drawn.
    pub lcd_status_mode: u8,
    /// As in `GpuCycles`.
    pub screen_enable_delay_cycles: i32,
    /// As in `GpuCycles`.
    pub cycles_counter: i32,
    /// As in `GpuCycles`.
    pub aux_cycles_counter: i32,
    /// As in `GpuCycles`.
    pub window_line: i32,
}

/// The bytes of all colours: POUCH_COLORS_LEN.
pub(crate) const COLORS_LEN: usize = 192;

/// The bytes of all sprites: POUCH_OAM_LEN.
pub const OAM_LEN: usize = 160;

/// A colour of a palette: channels of 5 bits, 0 to 31.
#[derive(Clone, Copy, Debug, PartialEq, Eq)]
pub struct CGBColor {
    /// Red.
    pub red: u8,
    /// Green.
    pub green: u8,
    /// Blue.
    pub blue: u8,
}
