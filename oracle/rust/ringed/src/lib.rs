//! The Rust with the rings of #106 alone; build.rs writes the module lines and applies the patch.

include!(concat!(env!("OUT_DIR"), "/modules.rs"));
