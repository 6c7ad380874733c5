use pouchrattle::{Cartridge, MbcType, Memory, Written};

/// Tells bank, page and place apart. After 256 banks it comes round, and so is another then: no page is as that of an earlier bank.
pub fn rom_byte(address: usize) -> u8 {
    let bank = address / 16384;
    ((address + bank * 7 + address / 256 * 3) ^ (bank / 256 * 0x55)) as u8
}

pub fn cartridge(mbc_type: MbcType, banks: usize, ram_size: u8) -> Cartridge {
    Cartridge { rom: (0..banks * 16384).map(rom_byte).collect(), mbc_type, ram_size }
}

/// A fresh bus over a save of 11 hex everywhere.
pub fn bus(mbc_type: MbcType, banks: usize, ram_size: u8, is_cgb: bool) -> Memory {
    let cartridge = cartridge(mbc_type, banks, ram_size);
    let save = vec![0x11; cartridge.save_len()];
    Memory::new(cartridge, is_cgb, &save).unwrap()
}

#[allow(dead_code)]
pub fn monochrome() -> Memory {
    bus(MbcType::RomOnly, 2, 0, false)
}

#[allow(dead_code)]
pub fn colour() -> Memory {
    bus(MbcType::RomOnly, 2, 0, true)
}

/// Fresh buses with two banks and no RAM code, one of each mapper.
#[allow(dead_code)]
pub fn each_mapper(is_cgb: bool) -> impl Iterator<Item = Memory> {
    [MbcType::RomOnly, MbcType::Mbc1, MbcType::Mbc2, MbcType::Mbc5].into_iter().map(move |mbc_type| bus(mbc_type, 2, 0, is_cgb))
}

fn enabled(mbc_type: MbcType, banks: usize, is_cgb: bool) -> Memory {
    let mut memory = bus(mbc_type, banks, 2, is_cgb);
    write(&mut memory, &[(0x0000, 0x0A)]);
    memory
}

/// Mbc1 with 8,192 bytes of RAM, enabled.
#[allow(dead_code)]
pub fn with_save(is_cgb: bool) -> Memory {
    enabled(MbcType::Mbc1, 2, is_cgb)
}

/// The same of each mapper that can enable RAM of a code, Mbc5 with few and with many banks.
#[allow(dead_code)]
pub fn with_saves(is_cgb: bool) -> impl Iterator<Item = Memory> {
    let cartridges = [(MbcType::Mbc1, 2), (MbcType::Mbc1, 128), (MbcType::Mbc5, 2), (MbcType::Mbc5, 8), (MbcType::Mbc5, 256), (MbcType::Mbc5, 512)];
    cartridges.into_iter().map(move |(mbc_type, banks)| enabled(mbc_type, banks, is_cgb))
}

/// A record as document 02 has it: bit 1, address 17 bits, value 8 bits, six 0 bits.
#[allow(dead_code)]
pub fn record(at: usize, value: u8) -> [u8; 4] {
    let bits = format!("1{at:017b}{value:08b}000000");
    u32::from_str_radix(&bits, 2).unwrap().to_be_bytes()
}

/// Writes that are done, and owe no sound.
#[allow(dead_code)]
pub fn write(memory: &mut Memory, writes: &[(u16, u8)]) {
    for &(index, value) in writes {
        assert_eq!(memory.write_byte(index, value), Ok(Written { owes_sound: false }), "{index:04X}");
    }
}

/// Numbers that come the same each time.
#[allow(dead_code)]
pub struct Random(pub u64);

#[allow(dead_code)]
impl Random {
    pub fn below(&mut self, limit: u16) -> u16 {
        self.0 = self.0.wrapping_mul(6_364_136_223_846_793_005).wrapping_add(1_442_695_040_888_963_407);
        ((self.0 >> 40) % u64::from(limit)) as u16
    }

    pub fn pick<T: Copy>(&mut self, of: &[T]) -> T {
        of[usize::from(self.below(of.len() as u16))]
    }

    /// A write that Mbc5 answers for, often at the end of a register's window; mostly it leaves RAM on.
    pub fn write(&mut self) -> (u16, u8) {
        let windows = [(0x0000, 0x2000), (0x2000, 0x1000), (0x3000, 0x1000), (0x4000, 0x2000), (0x6000, 0x2000), (0xA000, 0x2000), (0xA000, 0x2000)];
        let (start, len) = self.pick(&windows);
        let offset = match self.below(4) {
            0 => 0,
            1 => len - 1,
            _ => self.below(len),
        };
        let any = self.below(256) as u8;
        let value = if start == 0 { self.pick(&[0x0A, 0x5A, 0xFA, any]) } else { any };
        (start + offset, value)
    }
}
