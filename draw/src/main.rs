//! The drawing host on gameboy_core's own bus: the same scenes, the same drawing part as the binding's example (rust/examples/draw), other fields.

#[path = "../../rust/examples/draw/picture.rs"]
mod picture;
#[path = "../../rust/examples/draw/scenes.rs"]
mod scenes;

use gameboy_core::emulator::traits::RTC;
use gameboy_core::mmu::cartridge::Cartridge;
use gameboy_core::mmu::interrupt::Interrupt;
use gameboy_core::mmu::Memory;
use picture::{Bus, Numbers};
use std::io::{self, Read};

struct Theirs(Memory);

impl Bus for Theirs {
    fn read_byte(&self, index: u16) -> u8 {
        self.0.read_byte(index)
    }

    fn write_byte(&mut self, index: u16, value: u8) {
        self.0.write_byte(index, value);
    }

    fn read_cgb_lcd_ram(&self, index: u16, bank: u8) -> u8 {
        self.0.read_cgb_lcd_ram(index, i32::from(bank))
    }

    fn oam(&self) -> [u8; 160] {
        std::array::from_fn(|at| self.0.read_byte(0xFE00 + at as u16))
    }

    fn colors(&self) -> [[u8; 3]; 64] {
        let palettes = [&self.0.cgb_background_palettes, &self.0.cgb_sprite_palettes];
        std::array::from_fn(|at| {
            let color = palettes[at / 32][at / 4 % 8][at % 4];
            [color.red, color.green, color.blue]
        })
    }

    fn numbers(&self) -> Numbers {
        Numbers {
            screen_disabled: self.0.screen_disabled,
            scan_line: self.0.scan_line,
            irq48_signal: self.0.irq48_signal,
            lcd_status_mode: self.0.lcd_status_mode,
            screen_enable_delay_cycles: self.0.gpu_cycles.screen_enable_delay_cycles,
            cycles_counter: self.0.gpu_cycles.cycles_counter,
            aux_cycles_counter: self.0.gpu_cycles.aux_cycles_counter,
            window_line: self.0.gpu_cycles.window_line,
        }
    }

    fn set_screen_disabled(&mut self, to: bool) {
        self.0.screen_disabled = to;
    }

    fn set_scan_line(&mut self, to: u8) {
        self.0.scan_line = to;
    }

    fn set_lcd_status_mode(&mut self, to: u8) {
        self.0.lcd_status_mode = to;
    }

    fn set_screen_enable_delay_cycles(&mut self, to: i32) {
        self.0.gpu_cycles.screen_enable_delay_cycles = to;
    }

    fn set_cycles_counter(&mut self, to: i32) {
        self.0.gpu_cycles.cycles_counter = to;
    }

    fn set_aux_cycles_counter(&mut self, to: i32) {
        self.0.gpu_cycles.aux_cycles_counter = to;
    }

    fn set_window_line(&mut self, to: i32) {
        self.0.gpu_cycles.window_line = to;
    }

    fn compare_ly_to_lyc(&mut self) {
        self.0.compare_ly_to_lyc();
    }

    fn request_vblank(&mut self) {
        self.0.request_interrupt(Interrupt::Vblank);
    }

    fn is_hdma_enabled(&self) -> bool {
        self.0.is_hdma_enabled()
    }

    fn do_hdma(&mut self) -> i32 {
        self.0.do_hdma()
    }
}

/// Mbc3 alone would ask for the time.
struct NoClock;

impl RTC for NoClock {
    fn get_current_time(&self) -> u64 {
        0
    }
}

fn fresh(is_cgb: bool) -> Theirs {
    let mut cartridge = Cartridge::from_rom(scenes::rom()).expect("a cartridge");
    cartridge.set_ram(vec![0; 8192]);
    Theirs(Memory::from_cartridge(cartridge, Box::new(NoClock), is_cgb))
}

fn main() {
    let mut scenes = String::new();
    io::stdin().read_to_string(&mut scenes).expect("scenes");
    print!("{}", scenes::play(&scenes, fresh));
}
