//! The lower layer: every C name of the proved library as a safe function over borrowed slices. What a call answers is a
//! [`Reply`], SCOPE's number and what is carried; columns are the caller's, of whatever length and contents. The upper layer
//! and the comparison with the original both go through here.
//!
//! All `unsafe` of this crate stands in this module. The declarations in `names.rs` are written by `tools/bindings` from
//! the source that is proved.
//!
//! ```
//! use reachvolem::lent::{self, Index, Reply};
//!
//! let (xs, ys) = ([0.25, 0.5, 0.75], [0.5; 3]);
//! let (mut ids, mut coords) = ([0; 3], [0.0; 6]);
//! assert_eq!(lent::build(64, &xs, &ys, &mut ids, &mut coords), Reply { number: 0, carried: 0 });
//!
//! let index = Index { node_size: 64, count: 3, ids: &ids, coords: &coords };
//! let mut out = [9; 1];
//! // Two places pass and one fits: 10 carries the two.
//! assert_eq!(index.range([0.3, 0.0, 1.0, 1.0], &mut out), Reply { number: 10, carried: 2 });
//! assert_eq!(out, [1]);
//! ```

mod calls;
mod index;
mod load;
mod post;
mod questions;
mod range;

pub use index::{build, Index, NO_SLOT};
pub use load::{entries_needed, load, Given, Written};
pub use post::post;
pub use questions::{Asked, Columns, EffortReply, Entry, State};
pub use range::{denormalize, normalize, zoom_used};

use crate::Refused;

/// How many starts and lengths a state has, by zoom.
pub const ZOOMS: usize = 32;

/// What stands in `seen` where no zoom has marked an entry.
pub const SEEN_UNSET: u8 = u8::MAX;

/// What stands in `parent` where no cluster has absorbed an entry.
pub const PARENT_UNSET: u32 = u32::MAX;

/// A reply: SCOPE's number of it, 0 where nothing is refused, and the number that it carries.
#[derive(Clone, Copy, Debug, PartialEq, Eq)]
pub struct Reply {
    /// 0, or the number of the refusal.
    pub number: u32,
    /// How many items are listed, the answer itself, or what the refusal carries.
    pub carried: usize,
}

impl Reply {
    /// What it carries, or the refusal.
    pub fn accepted(self) -> Result<usize, Refused> {
        Refused::of(self.number, self.carried).map_or(Ok(self.carried), Err)
    }
}

/// What stands where a number is handed back, before the call: no reply carries it.
const UNSET: usize = 0x5e5e_5e5e_5e5e_5e5e;

/// A reply, from a call that is given the place for the carried number.
fn reply(call: impl FnOnce(&mut usize) -> u32) -> Reply {
    let mut carried = UNSET;
    let number = call(&mut carried);
    Reply { number, carried }
}
