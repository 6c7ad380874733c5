//! The loop in the shape of gameboy_core's `Emulator::emulate`: after each instruction the timer, the screen, the buttons and the interrupts have their turn.

use crate::bus::Bus;
use crate::engine::{next_mode, pass, Processor};
use crate::game::{Button, Step};
use bench::pattern::Access;

pub fn play<B: Bus>(bus: &mut B, steps: &[Step]) -> u32 {
    let mut processor = Processor::default();
    for step in steps {
        processor.step(bus);
        run(&mut processor, bus, step);
        bus.update_timer(step.cycles());
        draw(bus, step.cycles());
        match step.button {
            Some(Button::Press) => bus.press(),
            Some(Button::Release) => bus.release(),
            None => (),
        }
        bus.update_joypad();
        if let Some(interrupt) = bus.get_interrupts() {
            if processor.serves() {
                processor.serve(bus, interrupt);
            }
        }
    }
    processor.seen()
}

fn run<B: Bus>(processor: &mut Processor, bus: &mut B, step: &Step) {
    for index in step.fetches() {
        processor.see(bus.read_byte(*index));
    }
    match step.data() {
        Some(Access::Read(index)) => processor.see(bus.read_byte(index)),
        Some(Access::Write(index, value)) => bus.write_byte(index, value),
        None => (),
    }
}

/// The screen's numbers are the bus's: taken and given back at each step.
fn draw<B: Bus>(bus: &mut B, cycles: i32) {
    let mut numbers = bus.numbers();
    if pass(&mut numbers, cycles) {
        let numbers = next_mode(bus, numbers);
        if numbers.lcd_status_mode == 0 && bus.is_hdma_enabled() {
            bus.do_hdma();
        }
    } else {
        bus.set_numbers(numbers);
    }
}
