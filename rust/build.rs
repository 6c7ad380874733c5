//! Links the library's static archive: from POUCHRATTLE_LIB_DIR, or from where `tests/prove staticlib host` leaves it.

use std::env;
use std::path::PathBuf;

fn main() {
    println!("cargo:rerun-if-env-changed=POUCHRATTLE_LIB_DIR");
    let folder = match env::var_os("POUCHRATTLE_LIB_DIR") {
        Some(folder) => PathBuf::from(folder),
        None => PathBuf::from(env::var_os("CARGO_MANIFEST_DIR").unwrap()).join("../target/staticlib"),
    };
    // An installed archive has the library's name, a built one its crate's.
    let installed = folder.join("libpouchrattle.a").exists();
    let name = if installed { "pouchrattle" } else { "host" };
    println!("cargo:rerun-if-changed={}", folder.join(format!("lib{name}.a")).display());
    println!("cargo:rustc-link-search=native={}", folder.display());
    println!("cargo:rustc-link-lib=static={name}");
}
