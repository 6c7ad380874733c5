//! The C entries, and the only `unsafe` of this crate.
//!
//! Why it is sound: an entry (crates/host_c, which calls crates/host) takes each slice as a pointer and a length, has no precondition, is proved to read and write
//! nothing outside what it is lent, and keeps no pointer. Rust's references are valid, and none overlaps one lent as `&mut`. That the
//! signatures below are those of crates/host_c/src is tested (tests/signatures.rs).

#![allow(clippy::too_many_arguments)]

/// A slice as C takes it.
trait Lent {
    type Pointer;
    fn lend(self) -> (Self::Pointer, usize);
}

impl Lent for &[u8] {
    type Pointer = *const u8;
    #[inline]
    fn lend(self) -> (*const u8, usize) {
        (self.as_ptr(), self.len())
    }
}

impl Lent for &mut [u8] {
    type Pointer = *mut u8;
    #[inline]
    fn lend(self) -> (*mut u8, usize) {
        (self.as_mut_ptr(), self.len())
    }
}

/// For each line, the C declaration and a safe function of the same name over it. Slices stand before the first semicolon; the other
/// arguments after it; a second semicolon parts them from further slices.
macro_rules! entries {
    ($(fn $name:ident($($lent:ident: $slice:ty),*; $($argument:ident: $type:ty),* $(; $($more:ident: $further:ty),*)?);)*) => {
        mod c {
            use super::Lent;
            extern "C" {
                $(pub fn $name($($lent: <$slice as Lent>::Pointer, _: usize,)* $($argument: $type,)*
                    $($($more: <$further as Lent>::Pointer, _: usize,)*)?) -> u8;)*
            }
        }
        $(#[inline]
        pub fn $name($($lent: $slice,)* $($argument: $type,)* $($($more: $further,)*)?) -> u8 {
            $(let $lent = $lent.lend();)*
            $($(let $more = $more.lend();)*)?
            unsafe { c::$name($($lent.0, $lent.1,)* $($argument,)* $($($more.0, $more.1,)*)?) }
        })*
    };
}

entries! {
    // src/convert.rt
    fn pouch_log_to_new(old: &[u8], log: &mut [u8]; value: &mut u16);
    fn pouch_log_to_old(log: &[u8], old: &mut [u8]; value: &mut u16);

    // src/lent.rt
    fn pouch_fresh(image: &mut [u8]; kind: u8, banks: u16, code: u8, colour: bool;
        rom: &[u8], vram: &mut [u8], wram: &mut [u8], save: &[u8], log: &[u8], sound: &[u8]);
    fn pouch_read_byte(image: &[u8], rom: &[u8], vram: &[u8], wram: &[u8], save: &[u8], sound: &[u8]; index: u16, value: &mut u8);
    fn pouch_read_word(image: &[u8], rom: &[u8], vram: &[u8], wram: &[u8], save: &[u8], sound: &[u8]; index: u16, value: &mut u16);
    fn pouch_read_block(image: &[u8], rom: &[u8], vram: &[u8], wram: &[u8], save: &[u8], sound: &[u8]; index: u16; out: &mut [u8]);
    fn pouch_read_cgb_lcd_ram(image: &[u8], vram: &[u8]; index: u16, bank: u8, value: &mut u8);
    fn pouch_write_byte(image: &mut [u8], rom: &[u8], vram: &mut [u8], wram: &mut [u8], save: &mut [u8], log: &mut [u8], sound: &[u8];
        index: u16, byte: u8);
    fn pouch_write_word(image: &mut [u8], rom: &[u8], vram: &mut [u8], wram: &mut [u8], save: &mut [u8], log: &mut [u8], sound: &[u8];
        index: u16, word: u16);
    fn pouch_do_dma_transfer(image: &mut [u8], rom: &[u8], vram: &mut [u8], wram: &mut [u8], save: &mut [u8], log: &mut [u8], sound: &[u8];
        page: u8);
    fn pouch_do_hdma(image: &mut [u8], rom: &[u8], vram: &mut [u8], wram: &mut [u8], save: &mut [u8], log: &mut [u8], sound: &[u8];
        value: &mut u16);
    fn pouch_recover(save: &mut [u8], log: &[u8];);
    fn pouch_log_used(image: &[u8]; value: &mut u16);
    fn pouch_set_log_used(image: &mut [u8]; used: u16);

    // src/screen.rt
    fn pouch_host_numbers(image: &[u8]; disabled: &mut u8, line: &mut u8, signal: &mut u8, mode: &mut u8,
        delay: &mut i32, counter: &mut i32, aux: &mut i32, window: &mut i32);
    fn pouch_colors(image: &[u8], colors: &mut [u8];);
    fn pouch_oam(image: &[u8], oam: &mut [u8];);
    fn pouch_set_screen_disabled(image: &mut [u8]; disabled: bool);
    fn pouch_set_scan_line(image: &mut [u8]; line: u8);
    fn pouch_set_irq48_signal(image: &mut [u8]; signal: u8);
    fn pouch_set_lcd_status_mode(image: &mut [u8]; mode: u8);
    fn pouch_set_screen_enable_delay_cycles(image: &mut [u8]; delay: i32);
    fn pouch_set_cycles_counter(image: &mut [u8]; counter: i32);
    fn pouch_set_aux_cycles_counter(image: &mut [u8]; aux: i32);
    fn pouch_set_window_line(image: &mut [u8]; window: i32);

    // src/state.rt
    fn pouch_load(image: &[u8]; index: u16, value: &mut u16);
    fn pouch_store(image: &mut [u8]; index: u16, byte: u8);
    fn pouch_set_joypad_state(image: &mut [u8]; state: u8);
    fn pouch_are_action_keys_enabled(image: &[u8]; value: &mut u16);
    fn pouch_are_direction_keys_enabled(image: &[u8]; value: &mut u16);
    fn pouch_do_lcd_control_write(image: &mut [u8]; byte: u8);
    fn pouch_do_lcd_status_write(image: &mut [u8]; byte: u8);
    fn pouch_do_scanline_write(image: &mut [u8]; byte: u8);
    fn pouch_do_lyc_write(image: &mut [u8]; byte: u8);
    fn pouch_compare_ly_to_lyc(image: &mut [u8];);
    fn pouch_enable_screen(image: &mut [u8];);
    fn pouch_disable_screen(image: &mut [u8];);
    fn pouch_reset_window_line(image: &mut [u8];);
    fn pouch_get_interrupts(image: &[u8]; value: &mut u16);
    fn pouch_request_interrupt(image: &mut [u8]; interrupt: u8);
    fn pouch_remove_interrupt(image: &mut [u8]; interrupt: u8);
    fn pouch_is_hdma_enabled(image: &[u8]; value: &mut u16);
    fn pouch_update_timer(image: &mut [u8]; cycles: u32);
    fn pouch_cycles_to_overflow(image: &[u8]; value: &mut u32);
    fn pouch_press(image: &mut [u8]; button: u8);
    fn pouch_release(image: &mut [u8]; button: u8);
    fn pouch_update_joypad(image: &mut [u8];);
    fn pouch_clear_log(image: &mut [u8];);
    fn pouch_host(image: &mut [u8]; disabled: bool, line: u8, signal: u8, mode: u8, delay: i32, counter: i32, aux: i32, window: i32);
}

// src/version.rt
extern "C" {
    fn pouch_version() -> u64;
}

/// What the library is: POUCH_VERSION. It takes nothing and refuses nothing.
#[inline]
pub fn version() -> u64 {
    unsafe { pouch_version() }
}
