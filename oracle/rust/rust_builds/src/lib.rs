//! The builds of the Rust, asked to load: the Rust's own values from plain ones, and its tables as the port packs
//! them; and what only the untouched one skips.
//!
//! Every input is a point with an empty properties object; its id is its number, by which the lamps in an answer are
//! known. The Rust knows of no energy (#108): that of a cluster is the sum over the lamps that the Rust's own
//! `get_leaves` lists for it.

pub mod skipped;
mod tables;

pub use tables::{data, Row, Table, Tables, NOT_ONE};

use geojson::{feature::Id, Feature, Geometry, JsonObject, Value};

/// Up to so many points the builds with the window block arrange as the patched one does.
pub const WITHOUT_WINDOW: usize = 601;

/// A point with an empty properties object.
pub fn feature([x, y]: [f64; 2]) -> Feature {
    Feature {
        geometry: Some(Geometry::new(Value::Point(vec![x, y]))),
        properties: Some(JsonObject::new()),
        ..Feature::default()
    }
}

/// The same with its number as its id, by which it is known in an answer.
pub fn numbered(number: usize, point: [f64; 2]) -> Feature {
    Feature { id: Some(Id::String(number.to_string())), ..feature(point) }
}

/// The number of such a feature.
pub fn number_of(feature: &Feature) -> usize {
    match &feature.id {
        Some(Id::String(text)) => text.parse().expect("a lamp's number"),
        None => panic!("a lamp without its number"),
    }
}

/// The points of two columns as features.
pub fn features(xs: &[f64], ys: &[f64]) -> Vec<Feature> {
    xs.iter().zip(ys).map(|(x, y)| feature([*x, *y])).collect()
}

macro_rules! build {
    ($module:ident, $rust:ident) => {
        pub mod $module {
            //! This build of the Rust.

            use crate::{number_of, numbered, tables::Table, Tables};
            use columns::Given;
            use options::{Options, Plane, Range};
            pub use $rust::Supercluster;
            use $rust::{CoordinateSystem, DataRange, KDBush, SuperclusterOptions};

            /// A range as this build has it.
            pub fn data_range(range: &Range) -> DataRange {
                DataRange {
                    min_x: range.min_x,
                    min_y: range.min_y,
                    max_x: range.max_x,
                    max_y: range.max_y,
                    offset: range.offset,
                    scale: range.scale,
                }
            }

            /// An instance with these options, nothing loaded yet.
            pub fn unloaded(options: &Options) -> Supercluster {
                Supercluster::new(SuperclusterOptions {
                    min_zoom: options.min_zoom,
                    max_zoom: options.max_zoom,
                    min_points: options.min_points,
                    radius: options.radius,
                    extent: options.extent,
                    node_size: options.node_size,
                    coordinate_system: match &options.plane {
                        Plane::Globe => CoordinateSystem::LatLng,
                        Plane::Cartesian(range) => {
                            CoordinateSystem::Cartesian { range: data_range(range) }
                        }
                    },
                })
            }

            /// The tables of a loaded instance, the finest first.
            pub fn tables_of(rust: &Supercluster) -> impl Iterator<Item = Table<'_>> {
                let zooms = rust.options.min_zoom..=rust.options.max_zoom + 1;
                zooms.rev().map(|zoom| {
                    let KDBush { ids, coords, data, .. } = &rust.trees[&usize::from(zoom)];
                    Table { zoom: usize::from(zoom), data, ids, coords }
                })
            }

            /// The places that a ring answers in the table of a zoom.
            pub fn within(rust: &Supercluster, zoom: usize, [x, y, r]: [f64; 3]) -> Vec<usize> {
                rust.trees[&zoom].within(x, y, r)
            }

            /// Loads these points.
            pub fn loaded(options: &Options, xs: &[f64], ys: &[f64]) -> Supercluster {
                let mut rust = unloaded(options);
                let points = xs.iter().zip(ys).enumerate();
                let features = points.map(|(number, (x, y))| numbered(number, [*x, *y]));
                rust.load(features.collect()).expect("points that are loaded");
                rust
            }

            /// The lamps of a cluster, all that the Rust lists.
            fn lamps(rust: &Supercluster, id: u32) -> Vec<usize> {
                rust.get_leaves(id as usize, usize::MAX, 0).iter().map(number_of).collect()
            }

            /// The tables of a loaded instance in columns, with the energies of its points.
            pub fn packed(rust: &Supercluster, energies: &[u64]) -> Tables {
                Tables::packed(tables_of(rust), energies, |id| lamps(rust, id))
            }

            /// Loads these points; the tables.
            pub fn tables(options: &Options, given: &Given) -> Tables {
                packed(&loaded(options, given.xs, given.ys), given.energies)
            }
        }
    };
}

build!(untouched, oracle_untouched);
build!(ringed, oracle_ringed);
build!(patched, oracle_patched);
build!(counted, oracle_counted);
