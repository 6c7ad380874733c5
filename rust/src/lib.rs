//! Pouchrattle for Rust: the verified memory bus of a handheld console, by the names of the crate gameboy_core, so that an engine on that
//! crate can swap its bus: where it has `mod mmu;`, `mod timer;`, `mod joypad;` and `pub mod button;`, it says
//! `use pouchrattle::{button, joypad, mmu, timer};`. What differs from there: a write may be refused, the host takes the log off in place of a
//! callback, sound is a window of bytes, fields are functions, and OAM DMA copies from ROM too.
//!
//! ```
//! use pouchrattle::{mmu, Button, Cartridge, Controller, Interrupt, MbcType, Memory, Timer};
//!
//! let cartridge = Cartridge { rom: vec![0; 32768], mbc_type: MbcType::Mbc1, ram_size: 2 };
//! let save = vec![0; cartridge.save_len()];
//! let mut memory = Memory::new(cartridge, false, &save)?;
//!
//! memory.write_byte(0x0000, 0x0A)?; // enables the cartridge's RAM
//! memory.write_byte(0xA123, 0x56)?;
//! let log = memory.take_log(); // kept on disk before anything else; `Journal` does that
//!
//! let mut recovered = save;
//! pouchrattle::recover(&mut recovered, &log)?;
//! assert_eq!(recovered, memory.save());
//!
//! Timer::new().update(16, &mut memory)?;
//! let mut controller = Controller::new();
//! controller.press(Button::A);
//! controller.update(&mut memory);
//! memory.write_byte(mmu::INTERRUPT_ENABLE_INDEX, 0x10)?;
//! assert_eq!(memory.get_interrupts(), Some(Interrupt::Joypad));
//! # Ok::<(), pouchrattle::Refusal>(())
//! ```

#![deny(unsafe_code, missing_docs)]

pub mod button;
mod convert;
#[allow(unsafe_code)]
mod entries;
mod journal;
pub mod joypad;
pub mod mmu;
mod recovery;
mod refusal;
pub mod timer;
mod version;

pub use button::Button;
pub use convert::{log_to_new, log_to_old, LONGEST_OLD_LOG, OLD_RECORD_LEN};
pub use journal::{Journal, JOURNAL_MARK};
pub use joypad::Controller;
pub use mmu::cartridge::{Cartridge, MbcType, NotCut};
pub use mmu::gpu_cycles::GpuCycles;
pub use mmu::image::{CGBColor, HostNumbers, Image, IMAGE_LEN, OAM_LEN};
pub use mmu::interrupt::Interrupt;
pub use mmu::{Memory, LONGEST_BLOCK, LONGEST_LOG, RECORD_LEN};
pub use recovery::{journal_len, recover, recover_journal, recover_old_journal};
pub use refusal::{BeyondOld, Damaged, Expected, OutOfRange, RecordBytes, Refusal, Which, Written, WrongLength};
pub use timer::Timer;
pub use version::{version, Version};
