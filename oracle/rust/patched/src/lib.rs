//! The Rust without the window block of `select`, and with the rings of #106; build.rs writes the module lines and
//! applies both patches.

include!(concat!(env!("OUT_DIR"), "/modules.rs"));
