//! The scenes (draw/scenes.txt): what a game does to be drawn, line by line of the screen.
//!
//!     N 1              a fresh bus, 1 in colour, 0 in monochrome
//!     W FF40 91        a write
//!     F 8000 1000 05   1000 writes from 8000 on, of a pattern that begins with 05
//!     L 90             the lines before 90 are drawn; at 90 the frame ends, and its sums are printed
//!
//! Numbers are hex; other lines say something to the reader.

use crate::picture::{Bus, Screen};

/// Mbc1, two banks, RAM code 2.
pub fn rom() -> Vec<u8> {
    let mut rom: Vec<u8> = (0..32768).map(|address| (address + address / 256 * 3) as u8).collect();
    rom[0x0147] = 1;
    rom[0x0149] = 2;
    rom
}

/// Plays the scenes on buses that `fresh` makes, and gives a line for each frame.
pub fn play<B: Bus>(scenes: &str, fresh: impl Fn(bool) -> B) -> String {
    let mut bus = fresh(false);
    let mut screen = Screen::new(false);
    let mut said = String::new();
    for line in scenes.lines() {
        let words: Vec<&str> = line.split(' ').collect();
        let number = |at: usize| usize::from_str_radix(words[at], 16).expect("a hex number");
        match words[0] {
            "N" => {
                let is_cgb = number(1) == 1;
                bus = fresh(is_cgb);
                screen = Screen::new(is_cgb);
            }
            "W" => bus.write_byte(number(1) as u16, number(2) as u8),
            "F" => (0..number(2)).for_each(|k| bus.write_byte((number(1) + k) as u16, (number(3) + k * 37 + k / 16 * 11) as u8)),
            "L" => {
                if let Some((picture, read)) = screen.draw(&mut bus, number(1) as u8) {
                    said += &format!("{:08X} {:08X}\n", picture.0, read.0);
                }
            }
            _ => {}
        }
    }
    said
}
