//! Stands in for rtc.rs: the clock registers of Mbc3, which is built but never
//! asked.

#[derive(Clone, Copy, Default)]
pub struct Rtc {
    pub seconds: u8,
    pub minutes: u8,
    pub hours: u8,
    pub days_low: u8,
    pub days_high: u8,
}

impl Rtc {
    pub fn new() -> Rtc {
        Rtc::default()
    }
}
