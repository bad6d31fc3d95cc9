//! Stand-in for the crate twox-hash: the name `XxHash64` over the standard library's hasher.
//! A hash decides no answer that is compared: the tables are looked up by their zoom and never walked.

use std::{collections::hash_map::DefaultHasher, hash::Hasher};

/// A hasher that starts from fixed keys, so every run is the same.
#[derive(Clone, Default)]
pub struct XxHash64 {
    inner: DefaultHasher,
}

impl Hasher for XxHash64 {
    fn finish(&self) -> u64 {
        self.inner.finish()
    }

    fn write(&mut self, bytes: &[u8]) {
        self.inner.write(bytes);
    }
}
