//! Points the modules of this crate at the Rust's files, and kdbush at a patched text of it, the later lines first.

fn main() {
    sources::patched("kdbush", &["without-window.patch", "../ringed/exact-rings.patch"]);
}
