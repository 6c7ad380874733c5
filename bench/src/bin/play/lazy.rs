//! The loop that calls the bus when something can have changed, and keeps the rest itself: the screen's numbers, the cycles that the timer was not yet
//! told of, and the interrupt that waits. The game cannot see the difference.

use crate::bus::Bus;
use crate::engine::{next_mode, pass, Processor};
use crate::game::{Button, Step};
use bench::pattern::Access;
use bench::sides::Ours;
use pouchrattle::{HostNumbers, Interrupt};

const TIMER: std::ops::RangeInclusive<u16> = 0xFF04..=0xFF07;

/// Fewer than the 65,536 that an update may be told of.
const LONGEST_WAIT: u32 = 60_000;

struct Engine<'a> {
    bus: &'a mut Ours,
    numbers: HostNumbers,
    /// Cycles that the timer was not told of, and with how many TIMA overflows.
    untold: u32,
    wait: u32,
    waiting: Option<Interrupt>,
}

pub fn play(bus: &mut Ours, steps: &[Step]) -> u32 {
    let numbers = bus.numbers();
    let mut engine = Engine { bus, numbers, untold: 0, wait: 0, waiting: None };
    engine.look();
    let mut processor = Processor::default();
    for step in steps {
        processor.step(engine.bus);
        engine.run(&mut processor, step);
        engine.untold += step.cycles() as u32;
        if engine.untold >= engine.wait {
            engine.tell();
        }
        if pass(&mut engine.numbers, step.cycles()) {
            engine.draw();
        }
        if let Some(button) = step.button {
            engine.button(button);
        }
        if let Some(interrupt) = engine.waiting {
            if processor.serves() {
                processor.serve(engine.bus, interrupt);
                engine.waiting = engine.bus.get_interrupts();
            }
        }
    }
    engine.tell();
    engine.bus.set_numbers(engine.numbers);
    processor.seen()
}

impl Engine<'_> {
    fn run(&mut self, processor: &mut Processor, step: &Step) {
        for index in step.fetches() {
            processor.see(self.bus.read_byte(*index));
        }
        match step.data() {
            Some(Access::Read(index)) => {
                if TIMER.contains(&index) {
                    self.tell();
                }
                processor.see(self.bus.read_byte(index));
            }
            Some(Access::Write(index, value)) if is_register(index) => self.write_register(index, value),
            Some(Access::Write(index, value)) => self.bus.write_byte(index, value),
            None => (),
        }
    }

    /// A write may turn the timer or the screen, show other keys, ask for an interrupt, start a transfer.
    #[inline(never)]
    fn write_register(&mut self, index: u16, value: u8) {
        self.tell();
        self.bus.set_numbers(self.numbers);
        self.bus.write_byte(index, value);
        self.look();
    }

    /// Takes anew what a write to a register may have changed.
    fn look(&mut self) {
        self.numbers = self.bus.numbers();
        self.bus.update_joypad();
        self.ask();
    }

    /// Tells the timer of the cycles.
    #[inline(never)]
    fn tell(&mut self) {
        self.bus.update_timer(self.untold as i32);
        self.untold = 0;
        self.ask();
    }

    /// How long the timer can wait, and which interrupt waits.
    fn ask(&mut self) {
        self.wait = self.bus.memory.cycles_to_overflow().map_or(LONGEST_WAIT, |cycles| cycles.min(LONGEST_WAIT));
        self.waiting = self.bus.get_interrupts();
    }

    /// The screen's next mode. A transfer reads what a game reads, so the timer comes first.
    #[inline(never)]
    fn draw(&mut self) {
        self.numbers = next_mode(self.bus, self.numbers);
        if self.numbers.lcd_status_mode == 0 && self.bus.is_hdma_enabled() {
            self.tell();
            self.bus.do_hdma();
        }
        self.waiting = self.bus.get_interrupts();
    }

    /// The buttons are shown to the game when they change, and in `look`, where it may have asked for other keys.
    #[inline(never)]
    fn button(&mut self, button: Button) {
        match button {
            Button::Press => self.bus.press(),
            Button::Release => self.bus.release(),
        }
        self.bus.update_joypad();
        self.waiting = self.bus.get_interrupts();
    }
}

fn is_register(index: u16) -> bool {
    (0xFF00..=0xFF7F).contains(&index) || index == 0xFFFF
}
