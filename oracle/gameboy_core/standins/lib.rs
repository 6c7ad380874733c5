// Stands in for the crate's lib.rs: the modules that the bus leans on, all of
// them open. The Rust's text is not ours to tidy, so its warnings are off.

#[allow(warnings, clippy::all)]
pub mod bit_utils;
pub mod button;
pub mod emulator;
pub mod gpu;
#[allow(warnings, clippy::all)]
pub mod joypad;
#[allow(warnings, clippy::all)]
pub mod mmu;
pub mod rtc;
#[allow(warnings, clippy::all)]
pub mod sound;
#[allow(warnings, clippy::all)]
pub mod timer;
