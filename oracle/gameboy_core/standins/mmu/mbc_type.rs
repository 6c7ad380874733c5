//! Stands in for mmu/mbc_type.rs.

#[derive(Clone, Copy)]
pub enum MbcType {
    RomOnly,
    Mbc1,
    Mbc2,
    Mbc3,
    Mbc5,
}
