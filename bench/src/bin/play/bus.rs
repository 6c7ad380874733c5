//! A bus as an engine's loop sees it: the calls of gameboy_core's `Memory`, on either side.

use bench::sides::{Ours, Theirs};
use gameboy_core::mmu::interrupt::Interrupt as TheirInterrupt;
use gameboy_core::mmu::probe;
use pouchrattle::{HostNumbers, Interrupt};

pub trait Bus {
    fn read_byte(&self, index: u16) -> u8;
    fn read_word(&self, index: u16) -> u16;
    fn write_byte(&mut self, index: u16, value: u8);
    fn write_word(&mut self, index: u16, value: u16);
    fn load(&self, index: u16) -> u8;
    fn store(&mut self, index: u16, value: u8);
    fn update_timer(&mut self, cycles: i32);
    fn get_interrupts(&self) -> Option<Interrupt>;
    fn request_interrupt(&mut self, interrupt: Interrupt);
    fn remove_interrupt(&mut self, interrupt: Interrupt);
    /// Button A goes down.
    fn press(&mut self);
    /// Button A goes up.
    fn release(&mut self);
    fn update_joypad(&mut self);
    fn compare_ly_to_lyc(&mut self);
    fn is_hdma_enabled(&self) -> bool;
    fn do_hdma(&mut self) -> i32;
    fn numbers(&self) -> HostNumbers;
    fn set_numbers(&mut self, numbers: HostNumbers);
    /// VRAM, WRAM and save.
    fn memories(&self) -> [&[u8]; 3];
}

/// Calls with the same name, arguments and answer on both sides.
macro_rules! same {
    () => {
        fn read_byte(&self, index: u16) -> u8 {
            self.memory.read_byte(index)
        }

        fn read_word(&self, index: u16) -> u16 {
            self.memory.read_word(index)
        }

        fn compare_ly_to_lyc(&mut self) {
            self.memory.compare_ly_to_lyc()
        }

        fn is_hdma_enabled(&self) -> bool {
            self.memory.is_hdma_enabled()
        }

        fn do_hdma(&mut self) -> i32 {
            self.memory.do_hdma()
        }

        fn update_joypad(&mut self) {
            self.controller.update(&mut self.memory)
        }
    };
}

impl Bus for Ours {
    same!();

    /// With the log taken off when it is full; the sound part is none.
    fn write_byte(&mut self, index: u16, value: u8) {
        while self.memory.write_byte(index, value).is_err() {
            let _ = self.memory.take_log();
        }
    }

    fn write_word(&mut self, index: u16, value: u16) {
        while self.memory.write_word(index, value).is_err() {
            let _ = self.memory.take_log();
        }
    }

    fn load(&self, index: u16) -> u8 {
        self.memory.load(index).expect("a register")
    }

    fn store(&mut self, index: u16, value: u8) {
        self.memory.store(index, value).expect("a register")
    }

    fn update_timer(&mut self, cycles: i32) {
        self.timer.update(cycles, &mut self.memory).expect("few cycles")
    }

    fn get_interrupts(&self) -> Option<Interrupt> {
        self.memory.get_interrupts()
    }

    fn request_interrupt(&mut self, interrupt: Interrupt) {
        self.memory.request_interrupt(interrupt)
    }

    fn remove_interrupt(&mut self, interrupt: Interrupt) {
        self.memory.remove_interrupt(interrupt)
    }

    fn press(&mut self) {
        self.controller.press(pouchrattle::Button::A)
    }

    fn release(&mut self) {
        self.controller.release(pouchrattle::Button::A)
    }

    fn numbers(&self) -> HostNumbers {
        self.memory.host_numbers()
    }

    fn set_numbers(&mut self, numbers: HostNumbers) {
        self.memory.set_host_numbers(numbers)
    }

    fn memories(&self) -> [&[u8]; 3] {
        [self.memory.vram(), self.memory.wram(), self.memory.save()]
    }
}

/// The interrupts in one order.
const OURS: [Interrupt; 5] = [Interrupt::Vblank, Interrupt::Lcd, Interrupt::Timer, Interrupt::Serial, Interrupt::Joypad];
const THEIRS: [TheirInterrupt; 5] = [TheirInterrupt::Vblank, TheirInterrupt::Lcd, TheirInterrupt::Timer, TheirInterrupt::Serial, TheirInterrupt::Joypad];

impl Bus for Theirs {
    same!();

    fn write_byte(&mut self, index: u16, value: u8) {
        self.memory.write_byte(index, value)
    }

    fn write_word(&mut self, index: u16, value: u16) {
        self.memory.write_word(index, value)
    }

    fn load(&self, index: u16) -> u8 {
        self.memory.load(index)
    }

    fn store(&mut self, index: u16, value: u8) {
        self.memory.store(index, value)
    }

    fn update_timer(&mut self, cycles: i32) {
        self.timer.update(cycles, &mut self.memory)
    }

    fn get_interrupts(&self) -> Option<Interrupt> {
        self.memory.get_interrupts().map(|interrupt| OURS[interrupt as usize])
    }

    fn request_interrupt(&mut self, interrupt: Interrupt) {
        self.memory.request_interrupt(THEIRS[interrupt as usize])
    }

    fn remove_interrupt(&mut self, interrupt: Interrupt) {
        self.memory.remove_interrupt(THEIRS[interrupt as usize])
    }

    fn press(&mut self) {
        self.controller.press(gameboy_core::button::Button::A)
    }

    fn release(&mut self) {
        self.controller.release(gameboy_core::button::Button::A)
    }

    /// Fields there: what the compiler does not need it does not copy.
    #[inline(always)]
    fn numbers(&self) -> HostNumbers {
        HostNumbers {
            screen_disabled: self.memory.screen_disabled,
            scan_line: self.memory.scan_line,
            irq48_signal: self.memory.irq48_signal,
            lcd_status_mode: self.memory.lcd_status_mode,
            screen_enable_delay_cycles: self.memory.gpu_cycles.screen_enable_delay_cycles,
            cycles_counter: self.memory.gpu_cycles.cycles_counter,
            aux_cycles_counter: self.memory.gpu_cycles.aux_cycles_counter,
            window_line: self.memory.gpu_cycles.window_line,
        }
    }

    #[inline(always)]
    fn set_numbers(&mut self, numbers: HostNumbers) {
        self.memory.screen_disabled = numbers.screen_disabled;
        self.memory.scan_line = numbers.scan_line;
        self.memory.irq48_signal = numbers.irq48_signal;
        self.memory.lcd_status_mode = numbers.lcd_status_mode;
        self.memory.gpu_cycles.screen_enable_delay_cycles = numbers.screen_enable_delay_cycles;
        self.memory.gpu_cycles.cycles_counter = numbers.cycles_counter;
        self.memory.gpu_cycles.aux_cycles_counter = numbers.aux_cycles_counter;
        self.memory.gpu_cycles.window_line = numbers.window_line;
    }

    fn memories(&self) -> [&[u8]; 3] {
        let hidden = probe::hidden(&self.memory);
        [hidden.vram, hidden.wram, self.memory.get_cartridge().get_ram()]
    }
}
