//! The controller's fields: buttons not pressed, action mark, direction mark.

use super::*;

pub fn get(controller: &Controller) -> (u8, bool, bool) {
    (
        controller.released.bits(),
        controller.previously_unset_button_pressed,
        controller.previously_unset_direction_pressed,
    )
}

pub fn set(controller: &mut Controller, released: u8, action: bool, direction: bool) {
    controller.released = Buttons::from_bits_truncate(released);
    controller.previously_unset_button_pressed = action;
    controller.previously_unset_direction_pressed = direction;
}
