//! The Rust as it is published, read from where it stands; build.rs writes the module lines.

include!(concat!(env!("OUT_DIR"), "/modules.rs"));
