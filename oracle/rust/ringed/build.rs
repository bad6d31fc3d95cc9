//! Points the modules of this crate at the Rust's files, and kdbush at a text of it with other rings.

fn main() {
    sources::patched("kdbush", &["exact-rings.patch"]);
}
