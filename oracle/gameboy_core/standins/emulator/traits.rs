//! Stands in for emulator/traits.rs: the clock that a bus is given.

#[allow(clippy::upper_case_acronyms)]
pub trait RTC {
    fn get_current_time(&self) -> u64;
}
