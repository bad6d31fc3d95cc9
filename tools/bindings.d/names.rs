//! The C names of the proved library, as they are: a slice is a pointer and a length in entries.
//! Written by tools/bindings from crates/exports/src/lib.rt; change that, not this.
#![allow(clippy::too_many_arguments)]

extern "C" {
    // NAMES: here
}
