//! The bus, by the paths of the Rust's module of this name: `mmu::Memory`, `mmu::LCD_INDEX`, `mmu::interrupt::Interrupt`.

mod access;
pub mod cartridge;
pub mod gpu_cycles;
pub(crate) mod image;
pub mod interrupt;
pub(crate) mod memory;
mod screen;
mod state;

pub use memory::{Memory, LONGEST_BLOCK, LONGEST_LOG, RECORD_LEN};

/// The sprites: 40 of 4 bytes, up to FE9F.
pub const SPRITES_START_INDEX: u16 = 0xFE00;
/// Which keys answer, and their answers.
pub const JOYPAD_INDEX: u16 = 0xFF00;
/// DIV, which counts every 256 cycles.
pub const DIVIDER_INDEX: u16 = 0xFF04;
/// TIMA, which counts by the period that the timer's control selects.
pub const SELECTABLE_TIMER_INDEX: u16 = 0xFF05;
/// TMA, from which TIMA starts again.
pub const TIMER_RESET_INDEX: u16 = 0xFF06;
/// TAC: bit 2 lets TIMA count, bits 1 and 0 select its period.
pub const TIMER_CONTROL_INDEX: u16 = 0xFF07;
/// The requested interrupts, by the numbers of `Interrupt`.
pub const INTERRUPT_FLAGS_INDEX: u16 = 0xFF0F;
/// The screen's control.
pub const LCD_CONTROL_INDEX: u16 = 0xFF40;
/// The screen's status.
pub const LCD_INDEX: u16 = 0xFF41;
/// The line of the background at the screen's top.
pub const SCROLL_Y_INDEX: u16 = 0xFF42;
/// The column of the background at the screen's left.
pub const SCROLL_X_INDEX: u16 = 0xFF43;
/// The scan line.
pub const LY_INDEX: u16 = 0xFF44;
/// The line with which the scan line is compared.
pub const LYC_INDEX: u16 = 0xFF45;
/// The background's palette, monochrome.
pub const BACKGROUND_PALETTE_INDEX: u16 = 0xFF47;
/// The sprites' first palette, monochrome.
pub const OBJECT_PALETTE_0_INDEX: u16 = 0xFF48;
/// The sprites' second palette, monochrome.
pub const OBJECT_PALETTE_1_INDEX: u16 = 0xFF49;
/// The screen's line at which the window begins.
pub const WINDOW_Y_INDEX: u16 = 0xFF4A;
/// The screen's column at which the window begins, and 7 more.
pub const WINDOW_X_INDEX: u16 = 0xFF4B;
/// The selected bank of video memory, in colour.
pub const VRAM_BANK_INDEX: u16 = 0xFF4F;
/// Which byte of the background's colours the next index holds; bit 7 lets it move on after a write.
pub const CGB_BACKGROUND_PALETTE_INDEX_INDEX: u16 = 0xFF68;
/// A byte of the background's colours.
pub const CGB_BACKGROUND_PALETTE_DATA_INDEX: u16 = 0xFF69;
/// Which byte of the sprites' colours the next index holds; bit 7 lets it move on after a write.
pub const CGB_SPRITE_PALETTE_INDEX_INDEX: u16 = 0xFF6A;
/// A byte of the sprites' colours.
pub const CGB_SPRITE_PALETTE_DATA_INDEX: u16 = 0xFF6B;
/// The enabled interrupts, by the numbers of `Interrupt`.
pub const INTERRUPT_ENABLE_INDEX: u16 = 0xFFFF;
