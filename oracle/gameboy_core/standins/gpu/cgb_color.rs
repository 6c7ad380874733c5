//! Stands in for gpu/cgb_color.rs.

#[allow(clippy::upper_case_acronyms)]
#[derive(Clone, Copy)]
pub struct CGBColor {
    pub red: u8,
    pub green: u8,
    pub blue: u8,
}
