//! The Rust, from where build.rs has laid it together with our stand-ins.

include!(concat!(env!("OUT_DIR"), "/lib.rs"));
