//! The plain values in which a build of the Rust speaks: entries and items.

/// One entry of a table, in the Rust's numbers: infinity and -1 stand for unset.
#[derive(Clone, Copy, Debug)]
pub struct Entry {
    pub x: f64,
    pub y: f64,
    pub seen: f64,
    pub id: f64,
    pub parent: f64,
    pub num: f64,
}

/// One feature of an answer: a cluster with its id and count, or a lamp with its number and count 1.
#[derive(Clone, Copy, Debug, PartialEq)]
pub struct Item {
    pub id: usize,
    pub num: usize,
    pub x: f64,
    pub y: f64,
}
