//! Texts to try the lister with, all from seeds: at every bound and one past it, of every shape and refusal, and
//! damaged copies of these. No text of the form is longer than 35,812 bytes, so that SCOPE's bound on the whole input
//! refuses nothing that the rest of the form would take.

mod bounds;
pub mod damage;
mod draft;
mod edge;
mod good;
mod stored;

pub use bounds::{at_bounds, rooms};
pub use draft::{example, Draft, KEYS};
pub use edge::rounded_edge;
pub use good::{good, spread, KINDS};
pub use stored::stored;

use damage::DAMAGES;
use splitmix::Splitmix;

/// A text, and in words what it is.
#[derive(Clone, Debug)]
pub struct Text {
    pub what: String,
    pub bytes: Vec<u8>,
    pub damaged: bool,
}

/// Texts in pairs, one as it was made and a damaged copy of it: those at the bounds, then so many more.
pub fn pairs(more: usize, seed: u64) -> impl Iterator<Item = [Text; 2]> {
    let mut source = Splitmix(seed);
    let edges = [1, 2, 64].map(rounded_edge);
    let bounds = at_bounds().into_iter().chain(rooms()).chain(edges).map(Some);
    let numbers = (0..more).map(|_| None);
    bounds.chain(numbers).enumerate().map(move |(number, draft)| {
        let draft = draft.unwrap_or_else(|| good(number, &mut source));
        let bytes = draft.text();
        let (name, damage) = source.pick(&DAMAGES);
        let copy = damage(&bytes, &mut source);
        let what = draft.name();
        let damaged = Text { what: format!("{what}, {name}"), bytes: copy, damaged: true };
        [Text { what, bytes, damaged: false }, damaged]
    })
}
