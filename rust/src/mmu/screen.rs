use super::gpu_cycles::GpuCycles;
use super::image::{CGBColor, HostNumbers, COLORS_LEN, OAM_LEN};
use super::memory::Memory;
use crate::entries::*;
use crate::refusal::done;
use std::array;

/// For each of the Rust's fields, the function that reads it and the one that sets it by its entry.
macro_rules! fields {
    ($($(#[$doc:meta])* $name:ident: $type:ty, $set:ident by $entry:ident;)*) => {
        /// The fields of the Rust's `Memory` and of its `gpu_cycles`, as functions. A read takes all of them from the image, as `host_numbers` does:
        /// who wants several calls that. Any value is taken, and nothing refuses these.
        impl Memory {
            $($(#[$doc])*
            #[inline]
            pub fn $name(&self) -> $type {
                self.host_numbers().$name
            }

            #[doc = concat!("Sets `", stringify!($name), "`, and nothing else.")]
            #[inline]
            pub fn $set(&mut self, to: $type) {
                done($entry(&mut self.image, to));
            })*
        }
    };
}

fields! {
    /// Whether the screen is off. The game switches it off by FF40; the host switches it on when its delay is over.
    screen_disabled: bool, set_screen_disabled by pouch_set_screen_disabled;
    /// The line that is drawn, 0 to 153, which FF44 reads.
    scan_line: u8, set_scan_line by pouch_set_scan_line;
    /// Which sources of the LCD interrupt hold now: bits 0, 1, 2 the modes, bit 3 the line that FF45 names.
    irq48_signal: u8, set_irq48_signal by pouch_set_irq48_signal;
    /// The screen's mode: 0 at a line's end, 1 between frames, 2 while sprites are searched, 3 while the line is drawn.
    lcd_status_mode: u8, set_lcd_status_mode by pouch_set_lcd_status_mode;
    /// `gpu_cycles.screen_enable_delay_cycles`: cycles until a screen that was switched on shows something.
    screen_enable_delay_cycles: i32, set_screen_enable_delay_cycles by pouch_set_screen_enable_delay_cycles;
    /// `gpu_cycles.cycles_counter`: cycles of the current mode.
    cycles_counter: i32, set_cycles_counter by pouch_set_cycles_counter;
    /// `gpu_cycles.aux_cycles_counter`: cycles of the current line in mode 1, in which no line is drawn.
    aux_cycles_counter: i32, set_aux_cycles_counter by pouch_set_aux_cycles_counter;
    /// `gpu_cycles.window_line`: the line of the window that is drawn next.
    window_line: i32, set_window_line by pouch_set_window_line;
}

/// The screen. The host draws; nothing refuses these.
impl Memory {
    /// The eight numbers that the bus and the host's drawing part share, by one call.
    #[inline]
    pub fn host_numbers(&self) -> HostNumbers {
        let mut numbers = HostNumbers::default();
        let mut disabled = 0;
        done(pouch_host_numbers(
            &self.image,
            &mut disabled,
            &mut numbers.scan_line,
            &mut numbers.irq48_signal,
            &mut numbers.lcd_status_mode,
            &mut numbers.screen_enable_delay_cycles,
            &mut numbers.cycles_counter,
            &mut numbers.aux_cycles_counter,
            &mut numbers.window_line,
        ));
        HostNumbers { screen_disabled: disabled == 1, ..numbers }
    }

    /// Sets all eight, to any values. A host that keeps copies of them over a write of the game's would undo with old ones what that has changed, a screen
    /// switched off for one: take them again after a write to FF40, FF41, FF44 or FF45, or set one by one.
    #[inline]
    pub fn set_host_numbers(&mut self, to: HostNumbers) {
        done(pouch_host(
            &mut self.image,
            to.screen_disabled,
            to.scan_line,
            to.irq48_signal,
            to.lcd_status_mode,
            to.screen_enable_delay_cycles,
            to.cycles_counter,
            to.aux_cycles_counter,
            to.window_line,
        ));
    }

    /// The last four of them, as the Rust's field of this name has them.
    #[inline]
    pub fn gpu_cycles(&self) -> GpuCycles {
        let HostNumbers { cycles_counter, aux_cycles_counter, screen_enable_delay_cycles, window_line, .. } = self.host_numbers();
        GpuCycles { cycles_counter, aux_cycles_counter, screen_enable_delay_cycles, window_line }
    }

    /// Sets the last four of them, to any values; the others stay.
    #[inline]
    pub fn set_gpu_cycles(&mut self, to: GpuCycles) {
        self.set_cycles_counter(to.cycles_counter);
        self.set_aux_cycles_counter(to.aux_cycles_counter);
        self.set_screen_enable_delay_cycles(to.screen_enable_delay_cycles);
        self.set_window_line(to.window_line);
    }

    /// The sprites, FE00..FE9F, for drawing: 40 of 4 bytes.
    #[inline]
    pub fn oam(&self) -> [u8; OAM_LEN] {
        let mut oam = [0; OAM_LEN];
        done(pouch_oam(&self.image, &mut oam));
        oam
    }

    /// The background's palettes, for drawing. A game sets them by FF68 and FF69, and so does a host.
    pub fn cgb_background_palettes(&self) -> [[CGBColor; 4]; 8] {
        let [background, _] = self.palettes();
        background
    }

    /// The sprites' palettes, for drawing. A game sets them by FF6A and FF6B, and so does a host.
    pub fn cgb_sprite_palettes(&self) -> [[CGBColor; 4]; 8] {
        let [_, sprites] = self.palettes();
        sprites
    }

    /// The background's, then the sprites'.
    fn palettes(&self) -> [[[CGBColor; 4]; 8]; 2] {
        let mut colors = [0; COLORS_LEN];
        done(pouch_colors(&self.image, &mut colors));
        let mut colors = colors.chunks_exact(3).map(|color| CGBColor { red: color[0], green: color[1], blue: color[2] });
        array::from_fn(|_| array::from_fn(|_| array::from_fn(|_| colors.next().unwrap())))
    }

    /// What a write of this byte does to FF40, the screen's control.
    #[inline]
    pub fn do_lcd_control_write(&mut self, value: u8) {
        done(pouch_do_lcd_control_write(&mut self.image, value));
    }

    /// What a write of this byte does to FF41, the screen's status.
    #[inline]
    pub fn do_lcd_status_write(&mut self, value: u8) {
        done(pouch_do_lcd_status_write(&mut self.image, value));
    }

    /// What a write of this byte does to FF44, the scan line.
    #[inline]
    pub fn do_scanline_write(&mut self, value: u8) {
        done(pouch_do_scanline_write(&mut self.image, value));
    }

    /// What a write of this byte does to FF45, the line to compare with.
    #[inline]
    pub fn do_lyc_write(&mut self, value: u8) {
        done(pouch_do_lyc_write(&mut self.image, value));
    }

    /// Compares the scan line with FF45, unless the screen is off; may request the LCD interrupt.
    #[inline]
    pub fn compare_ly_to_lyc(&mut self) {
        done(pouch_compare_ly_to_lyc(&mut self.image));
    }

    /// A screen that is off gets its delay of 244 cycles; another stays as it is.
    #[inline]
    pub fn enable_screen(&mut self) {
        done(pouch_enable_screen(&mut self.image));
    }

    /// Switches the screen off: mode, line, signal and the two cycle counters become 0, and of FF41 bits 2 to 6 stay.
    #[inline]
    pub fn disable_screen(&mut self) {
        done(pouch_disable_screen(&mut self.image));
    }

    /// Window line 0 becomes 144 where the scan line is below 144 and beyond FF4A.
    #[inline]
    pub fn reset_window_line(&mut self) {
        done(pouch_reset_window_line(&mut self.image));
    }
}
