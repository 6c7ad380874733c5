//! Stands in for mmu/interrupt.rs: bits 0 to 4 of FF0F and FFFF.

#[derive(Clone, Copy)]
pub enum Interrupt {
    Vblank,
    Lcd,
    Timer,
    Serial,
    Joypad,
}
