//! P, L: buttons not pressed, action mark, direction mark, a button 0..7. Gives
//! the first three after a press, a release.
//! U: FF00 as stored, joypad_state, the controller's three, FF0F as stored.
//! Gives the same after an update.
//! F: FF00 as stored, joypad_state. Gives what FF00 reads, whether action keys
//! and whether direction keys answer.

use gameboy_core::button::Button;
use gameboy_core::joypad::{self, Controller};
use gameboy_core::mmu::{self, INTERRUPT_FLAGS_INDEX, JOYPAD_INDEX};

use super::{Bytes, Letter};
use crate::machine::Machine;
use crate::random::Random;

pub const BUTTONS_IN_ORDER: [Button; 8] = [
    Button::Up,
    Button::Down,
    Button::Left,
    Button::Right,
    Button::A,
    Button::B,
    Button::Start,
    Button::Select,
];

pub const PRESS: Letter = Letter {
    name: 'P',
    edges: every_press,
    random: any_press,
    answer: |machine, input| button_answer(machine, input, Controller::press),
    always: Vec::new,
    recorded: (224, 64),
};

pub const RELEASE: Letter = Letter {
    name: 'L',
    edges: every_press,
    random: any_press,
    answer: |machine, input| button_answer(machine, input, Controller::release),
    always: Vec::new,
    recorded: (192, 64),
};

pub const UPDATE: Letter = Letter {
    name: 'U',
    edges: update_edges,
    random: any_update,
    answer: update_answer,
    always: Vec::new,
    recorded: (256, 128),
};

pub const READ: Letter = Letter {
    name: 'F',
    edges: || {
        let all = (0..=255).flat_map(|page| (0..=255).map(move |state| vec![page, state]));
        all.collect()
    },
    random: |random| vec![random.byte(), random.byte()],
    answer: read_answer,
    always: Vec::new,
    recorded: (256, 64),
};

fn every_press() -> Vec<Bytes> {
    let mut list = Vec::new();
    for released in 0..=255 {
        for marks in 0..4 {
            for button in 0..8 {
                list.push(vec![released, marks / 2, marks % 2, button]);
            }
        }
    }
    list
}

fn any_press(random: &mut Random) -> Bytes {
    vec![
        random.byte(),
        random.flag(),
        random.flag(),
        random.below(8) as u8,
    ]
}

/// Every FF00 with every pair of marks, over the ends of FF0F.
fn update_edges() -> Vec<Bytes> {
    let mut list = Vec::new();
    for page in 0..=255u8 {
        for marks in 0..4 {
            for flags in [0x00, 0x0F, 0x10, 0x1F, 0xE0, 0xE1, 0xEF, 0xF0, 0xFF] {
                // Two bytes that go together with anything.
                let state = page.wrapping_mul(7).wrapping_add(flags);
                let released = page.wrapping_mul(5) ^ flags ^ marks;
                list.push(vec![page, state, released, marks / 2, marks % 2, flags]);
            }
        }
    }
    list
}

fn any_update(random: &mut Random) -> Bytes {
    vec![
        random.byte(),
        random.byte(),
        random.byte(),
        random.flag(),
        random.flag(),
        random.byte(),
    ]
}

fn set_controller(controller: &mut Controller, input: &[u8]) {
    joypad::probe::set(controller, input[0], input[1] == 1, input[2] == 1);
}

fn controller_bytes(controller: &Controller) -> Bytes {
    let (released, action, direction) = joypad::probe::get(controller);
    vec![released, action.into(), direction.into()]
}

fn button_answer(machine: &mut Machine, input: &[u8], call: fn(&mut Controller, Button)) -> Bytes {
    let controller = &mut machine.controller;
    set_controller(controller, input);
    call(controller, BUTTONS_IN_ORDER[usize::from(input[3])]);
    controller_bytes(controller)
}

fn update_answer(machine: &mut Machine, input: &[u8]) -> Bytes {
    let bus = &mut machine.bus;
    let controller = &mut machine.controller;
    bus.store(JOYPAD_INDEX, input[0]);
    bus.set_joypad_state(input[1]);
    set_controller(controller, &input[2..5]);
    bus.store(INTERRUPT_FLAGS_INDEX, input[5]);
    controller.update(bus);

    let mut output = vec![bus.load(JOYPAD_INDEX), mmu::probe::joypad_state(bus)];
    output.extend(controller_bytes(controller));
    output.push(bus.load(INTERRUPT_FLAGS_INDEX));
    output
}

fn read_answer(machine: &mut Machine, input: &[u8]) -> Bytes {
    let bus = &mut machine.bus;
    bus.store(JOYPAD_INDEX, input[0]);
    bus.set_joypad_state(input[1]);
    vec![
        bus.read_byte(JOYPAD_INDEX),
        bus.are_action_keys_enabled().into(),
        bus.are_direction_keys_enabled().into(),
    ]
}
