//! A host that draws, on this binding: plays the scenes of standard input and prints for each frame a sum of its picture, and one of all else that drawing
//! reads. Nothing here looks into an image.

mod picture;
mod scenes;

use picture::{Bus, Numbers};
use pouchrattle::{Cartridge, Interrupt, MbcType, Memory};
use std::io::{self, Read};

struct Ours(Memory);

impl Bus for Ours {
    fn read_byte(&self, index: u16) -> u8 {
        self.0.read_byte(index)
    }

    fn write_byte(&mut self, index: u16, value: u8) {
        self.0.write_byte(index, value).expect("room in the log");
    }

    fn read_cgb_lcd_ram(&self, index: u16, bank: u8) -> u8 {
        self.0.read_cgb_lcd_ram(index, i32::from(bank)).expect("a place in video memory")
    }

    fn oam(&self) -> [u8; 160] {
        self.0.oam()
    }

    fn colors(&self) -> [[u8; 3]; 64] {
        let palettes = [self.0.cgb_background_palettes(), self.0.cgb_sprite_palettes()];
        std::array::from_fn(|at| {
            let color = palettes[at / 32][at / 4 % 8][at % 4];
            [color.red, color.green, color.blue]
        })
    }

    fn numbers(&self) -> Numbers {
        let numbers = self.0.host_numbers();
        Numbers {
            screen_disabled: numbers.screen_disabled,
            scan_line: numbers.scan_line,
            irq48_signal: numbers.irq48_signal,
            lcd_status_mode: numbers.lcd_status_mode,
            screen_enable_delay_cycles: numbers.screen_enable_delay_cycles,
            cycles_counter: numbers.cycles_counter,
            aux_cycles_counter: numbers.aux_cycles_counter,
            window_line: numbers.window_line,
        }
    }

    fn set_screen_disabled(&mut self, to: bool) {
        self.0.set_screen_disabled(to);
    }

    fn set_scan_line(&mut self, to: u8) {
        self.0.set_scan_line(to);
    }

    fn set_lcd_status_mode(&mut self, to: u8) {
        self.0.set_lcd_status_mode(to);
    }

    fn set_screen_enable_delay_cycles(&mut self, to: i32) {
        self.0.set_screen_enable_delay_cycles(to);
    }

    fn set_cycles_counter(&mut self, to: i32) {
        self.0.set_cycles_counter(to);
    }

    fn set_aux_cycles_counter(&mut self, to: i32) {
        self.0.set_aux_cycles_counter(to);
    }

    fn set_window_line(&mut self, to: i32) {
        self.0.set_window_line(to);
    }

    fn compare_ly_to_lyc(&mut self) {
        self.0.compare_ly_to_lyc();
    }

    fn request_vblank(&mut self) {
        self.0.request_interrupt(Interrupt::Vblank);
    }

    fn is_hdma_enabled(&self) -> bool {
        self.0.is_hdma_enabled()
    }

    fn do_hdma(&mut self) -> i32 {
        self.0.do_hdma()
    }
}

fn fresh(is_cgb: bool) -> Ours {
    let cartridge = Cartridge { rom: scenes::rom(), mbc_type: MbcType::Mbc1, ram_size: 2 };
    Ours(Memory::new(cartridge, is_cgb, &[0; 8192]).expect("a bus"))
}

fn main() {
    let mut scenes = String::new();
    io::stdin().read_to_string(&mut scenes).expect("scenes");
    print!("{}", scenes::play(&scenes, fresh));
}
