//! Stands in for button.rs: the order of `button_to_buttons`.

#[derive(Clone, Copy)]
pub enum Button {
    Up,
    Down,
    Left,
    Right,
    A,
    B,
    Start,
    Select,
}
