//! The record of a stored save byte, as document 02 (wish 3) has it. The Rust has
//! none: it calls back with the address and the value.

/// What one stored byte takes of the log.
pub const LENGTH: usize = 4;

/// The most that a log holds.
pub const LOG_LENGTH: usize = 65_535;

const ADDRESS_BITS: u32 = 17;
const SPARE_BITS: u32 = 6;

/// Bit 1, the address, the value, and 0 bits to the end.
pub fn record(address: usize, value: u8) -> [u8; LENGTH] {
    let address = u32::try_from(address).expect("an address");
    assert!(address >> ADDRESS_BITS == 0, "an address of 17 bits");
    let head = (1 << ADDRESS_BITS) | address;
    (((head << 8) | u32::from(value)) << SPARE_BITS).to_be_bytes()
}
