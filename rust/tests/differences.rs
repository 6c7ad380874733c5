//! What docs/DIFFERENCES.md says of this bus beside another emulator, row by row.

use pouchrattle::{Cartridge, MbcType, Memory};

fn fresh(mbc_type: MbcType, is_cgb: bool, save: &[u8]) -> Option<Memory> {
    Memory::new(Cartridge { rom: vec![0; 32768], mbc_type, ram_size: 0 }, is_cgb, save).ok()
}

fn written(memory: &mut Memory, writes: &[(u16, u8)]) {
    for &(index, value) in writes {
        memory.write_byte(index, value).unwrap();
    }
}

#[test]
fn a_colour_has_15_bits() {
    let mut memory = fresh(MbcType::RomOnly, true, &[]).unwrap();
    written(&mut memory, &[(0xFF68, 0x01), (0xFF69, 0x80), (0xFF68, 0x01)]);
    assert_eq!(memory.load(0xFF69), Ok(0x00));
}

#[test]
fn colours_start_black() {
    let mut memory = fresh(MbcType::RomOnly, true, &[]).unwrap();
    for half in [0x00, 0x01] {
        written(&mut memory, &[(0xFF68, half)]);
        assert_eq!(memory.load(0xFF69), Ok(0x00));
        assert_eq!(memory.read_byte(0xFF69), 0xF8);
    }
    assert!(memory.cgb_background_palettes().iter().flatten().all(|color| [color.red, color.green, color.blue] == [0; 3]));
}

#[test]
fn ff46_at_the_start() {
    assert_eq!(fresh(MbcType::RomOnly, true, &[]).unwrap().read_byte(0xFF46), 0x00);
    assert_eq!(fresh(MbcType::RomOnly, false, &[]).unwrap().read_byte(0xFF46), 0xFF);
}

#[test]
fn an_mbc2_save_has_a_half_byte_in_each() {
    let mut memory = fresh(MbcType::Mbc2, false, &[0; 512]).unwrap();
    written(&mut memory, &[(0x0000, 0x0A), (0xA000, 0x01), (0xA001, 0x02)]);
    assert_eq!(memory.save()[..2], [0x01, 0x02]);
    assert!(fresh(MbcType::Mbc2, false, &[0; 256]).is_none());
    assert!(pouchrattle::recover(&mut [0; 256], &[]).is_err());
}
