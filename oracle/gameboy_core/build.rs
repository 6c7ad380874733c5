//! Lays the Rust's files, unchanged, and our stand-ins and probes into one
//! tree in OUT_DIR. Six of the Rust's files get one line more at their end,
//! which declares a child module: from there private fields can be reached.

use std::path::{Path, PathBuf};
use std::{env, fs};

/// The Rust's files that the build takes.
const TAKEN: [&str; 18] = [
    "bit_utils.rs",
    "gpu/lcd_control_flag.rs",
    "joypad/buttons.rs",
    "joypad/mod.rs",
    "mmu/cartridge.rs",
    "mmu/gpu_cycles.rs",
    "mmu/mbc.rs",
    "mmu/mbc1.rs",
    "mmu/mbc2.rs",
    "mmu/mbc3.rs",
    "mmu/mbc5.rs",
    "mmu/mod.rs",
    "mmu/rom_only.rs",
    "sound/mod.rs",
    "sound/noise_channel.rs",
    "sound/pulse_channel.rs",
    "sound/wave_channel.rs",
    "timer.rs",
];

/// Those of them that get a probe.
const PROBED: [&str; 6] = [
    "joypad/mod.rs",
    "mmu/cartridge.rs",
    "mmu/mbc1.rs",
    "mmu/mbc2.rs",
    "mmu/mbc5.rs",
    "mmu/mod.rs",
];

/// Where the Rust's folder is if GAMEBOY_CORE_SRC does not say: beside the
/// repository.
const BESIDE: &str = "../../../shared/docs/src";

fn main() {
    println!("cargo:rerun-if-env-changed=GAMEBOY_CORE_SRC");
    let here = PathBuf::from(env::var_os("CARGO_MANIFEST_DIR").unwrap());
    let out = PathBuf::from(env::var_os("OUT_DIR").unwrap());
    let rust = match env::var_os("GAMEBOY_CORE_SRC") {
        Some(folder) => PathBuf::from(folder),
        None => here.join(BESIDE),
    };

    for name in TAKEN {
        let from = rust.join("src").join(name);
        watch(&from);
        let mut text = match fs::read(&from) {
            Ok(text) => text,
            Err(error) => {
                eprintln!(
                    "the Rust's sources are not here: {}: {error}",
                    from.display()
                );
                std::process::exit(1);
            }
        };
        if PROBED.contains(&name) {
            text.extend_from_slice(b"\npub mod probe;\n");
        }
        put(&out.join(name), &text);
    }

    lay(&here.join("standins"), &out);
    lay(&here.join("probes"), &out);
}

/// Copies a folder of ours over the tree.
fn lay(from: &Path, to: &Path) {
    watch(from);
    for entry in fs::read_dir(from).unwrap() {
        let entry = entry.unwrap();
        let target = to.join(entry.file_name());
        if entry.file_type().unwrap().is_dir() {
            lay(&entry.path(), &target);
        } else {
            put(&target, &fs::read(entry.path()).unwrap());
        }
    }
}

fn put(path: &Path, text: &[u8]) {
    fs::create_dir_all(path.parent().unwrap()).unwrap();
    fs::write(path, text).unwrap();
}

fn watch(path: &Path) {
    println!("cargo:rerun-if-changed={}", path.display());
}
