//! Stands in for emulator/mod.rs, which needs the processor: only the traits.

pub mod traits;
