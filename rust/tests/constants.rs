//! The public constants and the paths of the Rust's modules, by which an engine names them.

use pouchrattle::{Cartridge, MbcType, IMAGE_LEN, LONGEST_BLOCK, LONGEST_LOG, LONGEST_OLD_LOG, OAM_LEN, OLD_RECORD_LEN, RECORD_LEN};
use std::collections::BTreeMap;
use std::io::Write;
use std::{env, fs, io};

const HERE: &str = env!("CARGO_MANIFEST_DIR");

/// The public constants that a source declares: names, and types with values as it writes them.
fn constants(source: &str) -> BTreeMap<&str, &str> {
    source.lines().filter_map(|line| line.strip_prefix("pub const ")?.strip_suffix(';')?.split_once(": ")).collect()
}

#[test]
fn the_rusts() {
    let ours = fs::read_to_string(format!("{HERE}/src/mmu/mod.rs")).unwrap();
    let folder = env::var("GAMEBOY_CORE_SRC").unwrap_or(format!("{HERE}/../../shared/docs/src"));
    match fs::read_to_string(format!("{folder}/src/mmu/mod.rs")) {
        Ok(theirs) => {
            assert_eq!(constants(&ours), constants(&theirs));
            // It makes the mapper of each name.
            for mbc_type in [MbcType::RomOnly, MbcType::Mbc1, MbcType::Mbc2, MbcType::Mbc5] {
                assert!(theirs.contains(&format!("MbcType::{mbc_type:?} =>")), "{mbc_type:?}");
            }
        }
        // Not by println!, whose words a test that passes does not show; by one write, as tests run side by side. rust/test counts them.
        Err(error) => {
            let words = format!("\nskipped: the_rusts, of tests/constants.rs: {folder}: {error}\n");
            io::stderr().write_all(words.as_bytes()).unwrap();
        }
    }
    assert_eq!(constants(&ours).len(), 24);
}

/// Lengths, by the names that C has for them.
#[test]
fn the_headers() {
    let header = fs::read_to_string(format!("{HERE}/../c/pouchrattle.h")).unwrap();
    let defined = |name: &str| {
        let value = header.lines().find_map(|line| line.strip_prefix("#define ")?.strip_prefix(name)?.strip_prefix(' ')).expect(name);
        value.split(' ').next().unwrap().parse::<usize>().unwrap()
    };
    let save = |mbc_type, ram_size| Cartridge { rom: vec![], mbc_type, ram_size }.save_len();
    for (name, len) in [
        ("POUCH_IMAGE_LEN", IMAGE_LEN),
        ("POUCH_RECORD_LEN", RECORD_LEN),
        ("POUCH_OLD_RECORD_LEN", OLD_RECORD_LEN),
        ("POUCH_LOG_LEN_MAX", LONGEST_LOG),
        ("POUCH_BLOCK_LEN_MAX", LONGEST_BLOCK),
        ("POUCH_OAM_LEN", OAM_LEN),
        ("POUCH_SAVE_LEN_CODE_0", save(MbcType::Mbc1, 0)),
        ("POUCH_SAVE_LEN_CODE_2", save(MbcType::RomOnly, 2)),
        ("POUCH_SAVE_LEN_CODE_3", save(MbcType::Mbc5, 3)),
        ("POUCH_SAVE_LEN_CODE_4", save(MbcType::Mbc5, 4)),
        ("POUCH_SAVE_LEN_MBC2", save(MbcType::Mbc2, 0)),
    ] {
        assert_eq!(len, defined(name), "{name}");
    }
    let version = ["MAJOR", "MINOR", "PATCH"].map(|part| defined(&format!("POUCH_VERSION_{part}")).to_string()).join(".");
    assert_eq!((version.as_str(), LONGEST_OLD_LOG), (env!("CARGO_PKG_VERSION"), 49151));
    assert_eq!([MbcType::RomOnly, MbcType::Mbc1].map(|mbc_type| save(mbc_type, 4)), [0, 0]);
}

/// An engine that has `use pouchrattle::{button, joypad, mmu, timer};` at its root, in place of modules of its own.
mod engine {
    use pouchrattle::{button, joypad, mmu, timer};

    pub mod gpu {
        use super::mmu::cartridge::Cartridge;
        use super::mmu::gpu_cycles::GpuCycles;
        use super::mmu::interrupt::Interrupt;
        use super::mmu::{self, Memory};

        pub fn vblank(memory: &mut Memory) -> u8 {
            memory.set_gpu_cycles(GpuCycles { cycles_counter: 4, ..GpuCycles::new() });
            memory.request_interrupt(Interrupt::Vblank);
            memory.load(mmu::INTERRUPT_FLAGS_INDEX).unwrap()
        }

        pub fn cartridge() -> Cartridge {
            Cartridge { rom: vec![0; 32768], mbc_type: super::mmu::cartridge::MbcType::RomOnly, ram_size: 0 }
        }
    }

    pub fn step(memory: &mut mmu::Memory) -> u8 {
        let mut controller = joypad::Controller::new();
        controller.press(button::Button::Start);
        controller.update(memory);
        timer::Timer::new().update(4, memory).unwrap();
        memory.read_byte(mmu::JOYPAD_INDEX)
    }
}

#[test]
fn the_rusts_paths() {
    let mut memory = pouchrattle::Memory::new(engine::gpu::cartridge(), false, &[]).unwrap();
    memory.write_byte(pouchrattle::mmu::JOYPAD_INDEX, 0x10).unwrap();
    assert_eq!(engine::step(&mut memory), 0x17);
    assert_eq!((engine::gpu::vblank(&mut memory), memory.cycles_counter()), (0x11, 4));
}
