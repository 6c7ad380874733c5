//! The binding's calls, one after another, its name on a line before each, for bench/binding to count between the two marks and to hold beside the C
//! entry that it wraps. The bus is as in bench/counted: Mbc1 with two banks and 8,192 bytes of RAM, colour, RAM enabled, the timer on.

use pouchrattle::{Button, Cartridge, HostNumbers, Interrupt, MbcType, Memory, Timer};
use std::hint::black_box;

/// bench/instructions finds the marks by their names; two functions alike would become one.
#[no_mangle]
#[inline(never)]
pub extern "C" fn count_from() {
    black_box(0);
}

#[no_mangle]
#[inline(never)]
pub extern "C" fn count_to() {
    black_box(1);
}

fn bus() -> Memory {
    let cartridge = Cartridge { rom: vec![0; 32768], mbc_type: MbcType::Mbc1, ram_size: 2 };
    let mut memory = Memory::new(cartridge, true, &[0; 8192]).expect("a bus");
    memory.write_byte(0x0000, 0x0A).expect("a write");
    memory.write_byte(0xFF07, 0x05).expect("a write");
    memory
}

macro_rules! cases {
    ($($name:ident: |$memory:ident| $call:expr;)*) => {
        $({
            let mut bus = bus();
            println!(stringify!($name));
            let $memory = black_box(&mut bus);
            count_from();
            let _ = black_box($call);
            count_to();
        })*
    };
}

fn main() {
    cases! {
        call_alone: |_memory| ();
        read_rom: |memory| memory.read_byte(0x4123);
        read_wram: |memory| memory.read_byte(0xC123);
        read_ff0f: |memory| memory.read_byte(0xFF0F);
        read_word_wram: |memory| memory.read_word(0xC123);
        write_wram: |memory| memory.write_byte(0xC123, 0x56);
        write_save_and_record: |memory| memory.write_byte(0xA123, 0x56);
        write_2000_mapper: |memory| memory.write_byte(0x2000, 0x01);
        write_word_wram: |memory| memory.write_word(0xC123, 0x1234);
        load: |memory| memory.load(0xFF85);
        store: |memory| memory.store(0xFF85, 3);
        oam_dma: |memory| memory.do_dma_transfer(0xC0);
        timer_by_4: |memory| Timer::new().update(4, memory);
        timer_by_65536: |memory| Timer::new().update(65536, memory);
        get_interrupts_none: |memory| memory.get_interrupts();
        request_interrupt: |memory| memory.request_interrupt(Interrupt::Timer);
        press: |memory| memory.press(Button::A);
        update_joypad: |memory| memory.update_joypad();
        is_hdma_enabled: |memory| memory.is_hdma_enabled();
        cycles_to_overflow: |memory| memory.cycles_to_overflow();
        remove_interrupt: |memory| memory.remove_interrupt(Interrupt::Timer);
        host: |memory| memory.set_host_numbers(HostNumbers { scan_line: 5, lcd_status_mode: 2, cycles_counter: 4, ..HostNumbers::default() });
        host_numbers: |memory| memory.host_numbers();
        set_screen_disabled: |memory| memory.set_screen_disabled(true);
        set_scan_line: |memory| memory.set_scan_line(5);
        set_irq48_signal: |memory| memory.set_irq48_signal(8);
        set_lcd_status_mode: |memory| memory.set_lcd_status_mode(2);
        set_screen_enable_delay_cycles: |memory| memory.set_screen_enable_delay_cycles(240);
        set_cycles_counter: |memory| memory.set_cycles_counter(4);
        set_aux_cycles_counter: |memory| memory.set_aux_cycles_counter(4);
        set_window_line: |memory| memory.set_window_line(7);
        compare_ly_to_lyc: |memory| memory.compare_ly_to_lyc();
        read_cgb_lcd_ram: |memory| memory.read_cgb_lcd_ram(0x9800, 1);
    }
}
