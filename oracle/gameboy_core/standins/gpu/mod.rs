//! Stands in for gpu/mod.rs: no drawing, only what the bus names.

pub mod cgb_color;
#[allow(warnings, clippy::all)]
pub mod lcd_control_flag;
