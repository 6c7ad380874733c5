//! The two digests of a bus: h = 0, then for each byte h = (h * 257 + byte + 1)
//! modulo 4,294,967,291, of the state's bytes and of the lent memories' bytes.

use gameboy_core::gpu::cgb_color::CGBColor;
use gameboy_core::joypad;
use gameboy_core::mmu::probe;

use super::host::Host;
use crate::leaves::Bytes;

const MODULUS: u64 = 4_294_967_291;

pub fn both(host: &Host) -> Bytes {
    let mut bytes: Bytes = digest(&state(host)).into();
    bytes.extend(digest(&memory(host)));
    bytes
}

fn digest(bytes: &[u8]) -> [u8; 4] {
    let sum = bytes
        .iter()
        .fold(0, |sum, byte| (sum * 257 + u64::from(*byte) + 1) % MODULUS);
    (sum as u32).to_be_bytes()
}

/// In the order of document 01's state image, without the log's use.
fn state(host: &Host) -> Bytes {
    let bus = &host.bus;
    let hidden = probe::hidden(bus);
    let (released, action, direction) = joypad::probe::get(&host.controller);

    let mut bytes: Bytes = hidden.oam.into();
    bytes.extend((0xFF00..=0xFFFF).map(|index| bus.load(index)));
    for palettes in [&bus.cgb_background_palettes, &bus.cgb_sprite_palettes] {
        bytes.extend(palettes.iter().flatten().flat_map(colour));
    }
    bytes.extend([
        hidden.colour.into(),
        bus.screen_disabled.into(),
        bus.is_hdma_enabled().into(),
        byte(hidden.vram_bank),
        byte(hidden.wram_bank),
        action.into(),
        direction.into(),
        probe::joypad_state(bus),
        released,
        bus.scan_line,
        bus.irq48_signal,
        bus.lcd_status_mode,
        byte(bus.div_cycles),
    ]);
    let tima_cycles: u16 = bus.tima_cycles.try_into().expect("tima_cycles in range");
    for number in [tima_cycles, hidden.hdma_source, hidden.hdma_destination] {
        bytes.extend(number.to_be_bytes());
    }
    let cycles = &bus.gpu_cycles;
    for number in [
        cycles.screen_enable_delay_cycles,
        cycles.cycles_counter,
        cycles.aux_cycles_counter,
        cycles.window_line,
    ] {
        bytes.extend(number.to_be_bytes());
    }
    let banks = host.banks();
    bytes.push(host.shape.kind);
    bytes.extend((1u16 << host.shape.log).to_be_bytes());
    bytes.push(host.shape.code);
    bytes.extend((banks.rom as u16).to_be_bytes());
    bytes.extend([
        banks.ram as u8,
        banks.mode.into(),
        banks.enabled.into(),
        banks.high as u8,
    ]);
    bytes
}

fn memory(host: &Host) -> Bytes {
    let hidden = probe::hidden(&host.bus);
    let log = host.log.borrow();
    let mut bytes: Bytes = hidden.vram.into();
    bytes.extend(hidden.wram);
    bytes.extend(host.bus.get_cartridge().get_ram());
    bytes.extend((log.len() as u16).to_be_bytes());
    bytes.extend(log.iter());
    bytes
}

fn colour(colour: &CGBColor) -> [u8; 3] {
    [colour.red, colour.green, colour.blue]
}

fn byte(number: i32) -> u8 {
    number.try_into().expect("a number in range")
}
