//! I: FFFF and FF0F as stored, an interrupt 0..4. Gives the interrupt that
//! get_interrupts names (5: none), then FF0F as stored after a request of the
//! given one and after its removal, each from the given FF0F.

use gameboy_core::mmu::interrupt::Interrupt;
use gameboy_core::mmu::{INTERRUPT_ENABLE_INDEX, INTERRUPT_FLAGS_INDEX};

use super::{Bytes, Letter};
use crate::machine::Machine;

pub const INTERRUPTS_IN_ORDER: [Interrupt; 5] = [
    Interrupt::Vblank,
    Interrupt::Lcd,
    Interrupt::Timer,
    Interrupt::Serial,
    Interrupt::Joypad,
];

pub const NONE: u8 = 5;

pub const INTERRUPTS: Letter = Letter {
    name: 'I',
    edges,
    random: |random| vec![random.byte(), random.byte(), random.below(5) as u8],
    answer,
    always: Vec::new,
    recorded: (256, 64),
};

/// Every pair of FFFF and FF0F, and beside every FF0F all five interrupts: no
/// number of the answer depends on more.
fn edges() -> Vec<Bytes> {
    let mut list = Vec::new();
    for enabled in 0..=255u8 {
        for flags in 0..=255u8 {
            let interrupt = (u16::from(enabled) + u16::from(flags)) % 5;
            list.push(vec![enabled, flags, interrupt as u8]);
        }
    }
    list
}

fn answer(machine: &mut Machine, input: &[u8]) -> Bytes {
    let bus = &mut machine.bus;
    let interrupt = INTERRUPTS_IN_ORDER[usize::from(input[2])];
    bus.store(INTERRUPT_ENABLE_INDEX, input[0]);
    bus.store(INTERRUPT_FLAGS_INDEX, input[1]);
    let first = bus.get_interrupts().map_or(NONE, |found| found as u8);
    bus.request_interrupt(interrupt);
    let requested = bus.load(INTERRUPT_FLAGS_INDEX);
    bus.store(INTERRUPT_FLAGS_INDEX, input[1]);
    bus.remove_interrupt(interrupt);
    vec![first, requested, bus.load(INTERRUPT_FLAGS_INDEX)]
}
