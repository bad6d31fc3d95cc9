//! The Rust's index: arranged by two builds, and their searches over any columns.

use super::{arrangement::Columns, queries::Query};
use reachvolem::lent::Index as Lent;

macro_rules! arranged {
    ($name:ident, $rust:ident) => {
        /// The columns of an index as this build arranges them.
        pub fn $name(node_size: usize, xs: &[f64], ys: &[f64]) -> Columns {
            let mut index = $rust::KDBush::new(xs.len(), node_size);
            for (x, y) in xs.iter().zip(ys) {
                index.add_point(*x, *y);
            }
            index.build_index();
            Columns { ids: index.ids.iter().map(|id| narrow(*id)).collect(), coords: index.coords }
        }
    };
}

arranged!(untouched, oracle_untouched);
arranged!(patched, oracle_patched);

macro_rules! searcher {
    ($name:ident, $rust:ident) => {
        /// The searches of this build over lent columns, whoever made them.
        pub struct $name($rust::KDBush);

        impl $name {
            pub fn over(lent: &Lent) -> $name {
                let mut index = $rust::KDBush::new(0, lent.node_size);
                index.ids = lent.ids[..lent.count].iter().map(|id| *id as usize).collect();
                index.coords = lent.coords[..2 * lent.count].to_vec();
                $name(index)
            }

            /// The places that a query answers; the Rust looks into none of them.
            pub fn places(&self, query: &Query) -> Vec<u32> {
                let $name(index) = self;
                let places = match *query {
                    Query::Range([min_x, min_y, max_x, max_y]) => {
                        index.range(min_x, min_y, max_x, max_y)
                    }
                    Query::Within([x, y, radius]) => index.within(x, y, radius),
                };
                places.into_iter().map(narrow).collect()
            }
        }
    };
}

searcher!(Patched, oracle_patched);
searcher!(Untouched, oracle_untouched);

/// A place as the port keeps it.
fn narrow(place: usize) -> u32 {
    u32::try_from(place).expect("a place of 32 bits")
}
