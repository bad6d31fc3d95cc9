//! Points the modules of this crate at the Rust's files, where they stand.

fn main() {
    sources::untouched();
}
