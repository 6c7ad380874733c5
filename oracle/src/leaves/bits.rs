//! B: byte, bit. Gives is_set, set_bit, unset_bit.

use gameboy_core::bit_utils::{is_set, set_bit, unset_bit};

use super::{Bytes, Letter};

pub const BIT: Letter = Letter {
    name: 'B',
    edges: || {
        let all = (0..=255).flat_map(|byte| (0..8).map(move |bit| vec![byte, bit]));
        all.collect()
    },
    random: |random| vec![random.any_byte(), random.below(8) as u8],
    answer: |_, input| answer(input[0], input[1]),
    always: Vec::new,
    recorded: (224, 64),
};

fn answer(byte: u8, bit: u8) -> Bytes {
    vec![
        is_set(byte, bit).into(),
        set_bit(byte, bit),
        unset_bit(byte, bit),
    ]
}
