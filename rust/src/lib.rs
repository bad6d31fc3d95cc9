//! Lamps on a map gathered into clusters for every zoom, by a library that is proved: every lamp has exactly one owner at
//! every zoom, and an entry's num and energy are the count and the sum of its own lamps. The calls are those of
//! supercluster-rs; README.md beside this crate has the table from its calls to these, and what a caller will notice.
//!
//! What is asked and refused stands in the repository's docs/SCOPE.md, to which 'SCOPE' refers here.
//!
//! ```
//! use reachvolem::{mercator, Options, Supercluster};
//!
//! let longitudes = [16.366, 16.37, 16.41];
//! let ys = [48.203, 48.205, 48.25].map(mercator::y_of);
//! let lamps = Supercluster::load(Options::default(), &longitudes, &ys, &[900, 800, 700])?;
//!
//! // One cluster has all three in the table of zoom 0. Its energy is the sum of theirs.
//! let places = lamps.get_clusters([-180.0, 0.0, 180.0, 1.0], 0)?;
//! let entry = lamps.entry(0, places[0])?;
//! assert_eq!((entry.num, entry.energy), (3, 2400));
//! assert_eq!(lamps.get_leaves(entry.id, entry.num, 0)?.len(), 3);
//!
//! // And it is the owner of each of them there.
//! assert_eq!((places[0], lamps.owner(2, 0)?), (0, 0));
//! assert_eq!(lamps.owners(0)?, [0, 0, 0]);
//! # Ok::<(), reachvolem::Refused>(())
//! ```
//!
//! - [`Supercluster`] owns what it builds; [`Tables`] asks the same of columns that are lent from elsewhere.
//! - [`Index`] is the index alone, for points within 0 to 1.
//! - [`lent`] is the layer below: every C name as a safe function over slices.
//! - [`mercator`] projects latitudes. It is not proved.
//!
//! The proved part is the library that is linked. This crate passes slices to it, makes room for the answers and reads the
//! columns; the comparison of the repository runs through [`lent`].

#![deny(missing_docs, unsafe_code)]

mod entry;
mod index;
#[allow(unsafe_code)] // The calls into the library: each says why it may be made.
pub mod lent;
pub mod mercator;
#[allow(missing_docs)] // Written by tools/bindings, with the comments of crates/exports.
mod names;
mod options;
mod pages;
mod refused;
mod room;
mod supercluster;
mod tables;

pub use entry::Entry;
pub use index::{Index, Walk};
pub use options::{CoordinateSystem, DataRange, Options};
pub use pages::LeafPages;
pub use refused::Refused;
pub use supercluster::Supercluster;
pub use tables::{Found, Tables, TileItem};

/// README.md's code runs as a test.
#[cfg(doctest)]
#[doc = include_str!("../README.md")]
struct ReadmeRuns;
