//! OAM DMA of every page by every way to it, beside what reads of the page gave before: for each mapper, with banks above 2, selected before. Of pages
//! 00..7F the Rust copies nothing (docs/DIFFERENCES.md): the recorded lists hold some of them to its own reads, with up to 256 banks; here are all, up to 512.

mod common;

use common::{bus, rom_byte, write};
use pouchrattle::{MbcType, Memory, OAM_LEN};

const WAYS: [fn(&mut Memory, u8); 4] = [
    |memory, page| memory.do_dma_transfer(page),
    |memory, page| write(memory, &[(0xFF46, page)]),
    |memory, page| assert!(memory.write_word(0xFF46, u16::from_be_bytes([0xE4, page])).is_ok()),
    |memory, page| assert!(memory.write_word(0xFF45, u16::from_be_bytes([page, 0x90])).is_ok()),
];

/// `LENGTH` bytes as reads give them.
fn read<const LENGTH: usize>(memory: &Memory, index: u16) -> [u8; LENGTH] {
    let mut bytes = [0; LENGTH];
    memory.read_block(index, &mut bytes).unwrap();
    bytes
}

/// What the page reads, by the bus and, of ROM, by the bank that is selected.
fn page_bytes(memory: &Memory, page: u8, bank: usize) -> [u8; OAM_LEN] {
    let start = u16::from(page) << 8;
    let bytes = read(memory, start);
    let in_rom = |place: usize| if place < 0x4000 { rom_byte(place) } else { rom_byte(place - 0x4000 + bank * 0x4000) };
    if page < 0x80 {
        assert!(bytes.iter().zip(usize::from(start)..).all(|(byte, place)| *byte == in_rom(place)), "page {page:02X} of bank {bank}");
    }
    bytes
}

/// Every page by every way.
fn all_pages(memory: &mut Memory, bank: usize) {
    for (page, way) in (0..=0xFF).flat_map(|page| (0..WAYS.len()).map(move |way| (page, way))) {
        // What the way before has left is no way to pass.
        write(memory, &[(0xFE00, page ^ 0x55), (0xFE9F, page ^ 0xAA)]);
        let mut due: [u8; 256] = read(memory, 0xFE00);
        if page < 0xE0 {
            due[..OAM_LEN].copy_from_slice(&page_bytes(memory, page, bank));
        }
        WAYS[way](memory, page);
        assert!(read(memory, 0xFE00) == due && memory.oam() == due[..OAM_LEN], "page {page:02X}, bank {bank}, way {way}");
    }
}

fn filled(mbc_type: MbcType, banks: usize, is_cgb: bool) -> Memory {
    let mut memory = bus(mbc_type, banks, 0, is_cgb);
    for index in (0x8000..=0x9FFF).chain(0xC000..=0xFDFF).chain(0xFEA0..=0xFEFF) {
        write(&mut memory, &[(index, (index / 7) as u8)]);
    }
    memory
}

#[test]
fn rom_only() {
    all_pages(&mut filled(MbcType::RomOnly, 2, false), 1);
    all_pages(&mut filled(MbcType::RomOnly, 2, true), 1);
}

#[test]
fn mbc1() {
    for (banks, selected) in [(2, &[1][..]), (8, &[2, 3, 6, 7]), (128, &[5, 33, 62, 127])] {
        let mut memory = filled(MbcType::Mbc1, banks, banks == 8);
        for &bank in selected {
            write(&mut memory, &[(0x4000, (bank / 32) as u8), (0x2000, (bank % 32) as u8)]);
            all_pages(&mut memory, bank);
        }
    }
}

#[test]
fn mbc2() {
    let mut memory = filled(MbcType::Mbc2, 16, false);
    for bank in [1, 3, 10, 15] {
        write(&mut memory, &[(0x2100, bank as u8)]);
        all_pages(&mut memory, bank);
    }
}

#[test]
fn mbc5() {
    for (banks, selected) in [(2, &[0, 1][..]), (8, &[0, 6, 7]), (256, &[0, 44, 255]), (512, &[0, 44, 255, 256, 300, 511])] {
        let mut memory = filled(MbcType::Mbc5, banks, banks == 8);
        for &bank in selected {
            write(&mut memory, &[(0x3000, (bank / 256) as u8), (0x2000, (bank % 256) as u8)]);
            all_pages(&mut memory, bank);
        }
    }
}
