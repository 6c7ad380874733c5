//! Buttons.

/// The buttons, by their numbers.
#[derive(Clone, Copy, Debug, PartialEq, Eq)]
#[repr(u8)]
pub enum Button {
    /// A direction.
    Up = 0,
    /// A direction.
    Down = 1,
    /// A direction.
    Left = 2,
    /// A direction.
    Right = 3,
    /// An action.
    A = 4,
    /// An action.
    B = 5,
    /// An action.
    Start = 6,
    /// An action.
    Select = 7,
}
