//! What the two programs share: the two sides, what a game asks of them, and the marks for counting.

pub mod marks;
pub mod pattern;
pub mod sides;
