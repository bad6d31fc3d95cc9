//! The patched Rust, which tells of every slot that `range` tests; build.rs writes the module lines and applies the
//! patches.

use std::cell::RefCell;

include!(concat!(env!("OUT_DIR"), "/modules.rs"));

/// A test of a slot: the place that the slot names, and whether it passes.
pub type Test = (usize, bool);

thread_local! {
    static TESTS: RefCell<Vec<Test>> = const { RefCell::new(Vec::new()) };
}

/// Counts a test; called by `range`.
fn count(place: usize, passes: bool) {
    TESTS.with_borrow_mut(|tests| tests.push((place, passes)));
}

/// The tests since this was asked last, in order.
pub fn tests() -> Vec<Test> {
    TESTS.take()
}
