//! One face for the builds of the Rust: every question, put to the Rust's own functions.

use crate::{Entry, Item};
use geojson::{Feature, FeatureCollection, Value};
use options::{Options, Range};
use rust_builds::{number_of, numbered};

/// A build of the Rust. An error is the Rust's own, by its name.
pub trait Judge: Sized {
    /// Which build this is.
    const NAME: &'static str;

    fn load(options: &Options, points: &[[f64; 2]]) -> Result<Self, String>;

    /// An instance with these points and tables, whoever made them, by the Rust's public fields.
    fn over(options: &Options, points: &[[f64; 2]], tables: Vec<Table>) -> Self;

    fn table(&self, zoom: usize) -> Option<Vec<Entry>>;
    fn decode(&self, id: usize) -> (usize, usize);
    fn children(&self, id: usize) -> Result<Vec<Item>, String>;
    fn leaves(&self, id: usize, limit: usize, offset: usize) -> Vec<Item>;
    fn expansion_zoom(&self, id: usize) -> usize;
    fn tile(&self, z: u8, x: f64, y: f64) -> Result<Vec<Item>, String>;

    /// What a tile is without its strips, z at most 31: the items that the Rust makes of what its `range` finds between
    /// the tile's edges, which are ours.
    fn own_range(&self, z: u8, x: f64, y: f64) -> Result<Vec<Item>, String>;

    fn in_box(&self, corners: [f64; 4], zoom: u8) -> Result<Vec<Item>, String>;
    fn within(&self, zoom: u8, x: f64, y: f64, radius: f64) -> Vec<usize>;

    /// An index alone: its slots, and the answers of its two searches.
    fn slots(node_size: usize, points: &[[f64; 2]]) -> Vec<usize>;
    fn index_within(node_size: usize, points: &[[f64; 2]], query: [f64; 3]) -> Vec<usize>;
    fn index_range(node_size: usize, points: &[[f64; 2]], corners: [f64; 4]) -> Vec<usize>;

    fn normalize(range: &Range, v: f64) -> f64;
    fn denormalize(range: &Range, v: f64) -> f64;

    /// Changes in the tables of a finished build, by the Rust's public fields.
    fn set_entry(&mut self, zoom: usize, place: usize, entry: Entry);
    fn set_slot(&mut self, zoom: usize, slot: usize, place: usize);
    fn drop_table(&mut self, zoom: usize);
}

/// A table as the Rust keeps it.
pub struct Table {
    pub zoom: usize,
    pub ids: Vec<usize>,
    pub coords: Vec<f64>,
    pub data: Vec<f64>,
}

/// What a feature of an answer says. A cluster is told by the property that the Rust gives it.
pub fn item(feature: &Feature) -> Item {
    let Some(Value::Point(at)) = feature.geometry.as_ref().map(|geometry| &geometry.value) else {
        panic!("an answer without a point");
    };
    let number = |name| {
        let value = feature.property(name).and_then(|value| value.as_u64());
        value.unwrap_or_else(|| panic!("a cluster without {name}")) as usize
    };
    let (id, num) = if feature.contains_property("cluster") {
        (number("cluster_id"), number("point_count"))
    } else {
        (number_of(feature), 1)
    };
    Item { id, num, x: at[0], y: at[1] }
}

/// The items of an answer, or the name of the Rust's error.
fn items<E: std::fmt::Debug>(answer: Result<Vec<Feature>, E>) -> Result<Vec<Item>, String> {
    match answer {
        Ok(features) => Ok(features.iter().map(item).collect()),
        Err(error) => Err(format!("{error:?}")),
    }
}

/// The six numbers of an entry in the Rust's order.
fn row(entry: Entry) -> [f64; 6] {
    [entry.x, entry.y, entry.seen, entry.id, entry.parent, entry.num]
}

/// An entry from the Rust's six numbers.
fn entry(row: &[f64]) -> Entry {
    Entry { x: row[0], y: row[1], seen: row[2], id: row[3], parent: row[4], num: row[5] }
}

macro_rules! judge {
    ($module:ident, $rust:ident, $name:literal) => {
        mod $module {
            use super::*;
            use rust_builds::$module::{data_range, unloaded};
            use $rust::{KDBush, Supercluster};

            fn index(node_size: usize, points: &[[f64; 2]]) -> KDBush {
                let mut index = KDBush::new(points.len(), node_size);
                for [x, y] in points {
                    index.add_point(*x, *y);
                }
                index.build_index();
                index
            }

            /// A loaded instance of this build.
            pub struct Build(Supercluster);

            impl Judge for Build {
                const NAME: &'static str = $name;

                fn load(options: &Options, points: &[[f64; 2]]) -> Result<Self, String> {
                    let mut rust = unloaded(options);
                    let features = points.iter().enumerate();
                    match rust.load(features.map(|(i, point)| numbered(i, *point)).collect()) {
                        Ok(_) => Ok(Build(rust)),
                        Err(error) => Err(format!("{error:?}")),
                    }
                }

                fn over(options: &Options, points: &[[f64; 2]], tables: Vec<Table>) -> Self {
                    let mut rust = unloaded(options);
                    let features = points.iter().enumerate();
                    rust.points = features.map(|(i, point)| numbered(i, *point)).collect();
                    for Table { zoom, ids, coords, data } in tables {
                        let index = KDBush::new(0, options.node_size);
                        rust.trees.insert(zoom, KDBush { ids, coords, data, ..index });
                    }
                    Build(rust)
                }

                fn table(&self, zoom: usize) -> Option<Vec<Entry>> {
                    let data = &self.0.trees.get(&zoom)?.data;
                    Some(data.chunks(self.0.stride).map(entry).collect())
                }

                fn decode(&self, id: usize) -> (usize, usize) {
                    (self.0.get_origin_id(id), self.0.get_origin_zoom(id))
                }

                fn children(&self, id: usize) -> Result<Vec<Item>, String> {
                    items(self.0.get_children(id))
                }

                fn leaves(&self, id: usize, limit: usize, offset: usize) -> Vec<Item> {
                    let leaves = self.0.get_leaves(id, limit, offset);
                    leaves.iter().map(item).collect()
                }

                fn expansion_zoom(&self, id: usize) -> usize {
                    self.0.get_cluster_expansion_zoom(id)
                }

                fn tile(&self, z: u8, x: f64, y: f64) -> Result<Vec<Item>, String> {
                    items(self.0.get_tile(z, x, y).map(|tile| tile.features))
                }

                fn own_range(&self, z: u8, x: f64, y: f64) -> Result<Vec<Item>, String> {
                    let Build(rust) = self;
                    let tree = &rust.trees[&rust.limit_zoom(z)];
                    let z2 = f64::from(1_u32 << z);
                    let p = rust.options.radius / rust.options.extent;
                    let [w, e] = [x - p, x + 1.0 + p].map(|v| v / z2);
                    let [top, bottom] = [y - p, y + 1.0 + p].map(|v| v / z2);
                    let mut own =
                        FeatureCollection { bbox: None, features: vec![], foreign_members: None };
                    let found = tree.range(w, top, e, bottom);
                    rust.add_tile_features(&found, &tree.data, x, y, z2, &mut own);
                    match own.features.is_empty() {
                        true => Err("TileNotFound".to_string()),
                        false => Ok(own.features.iter().map(item).collect()),
                    }
                }

                fn in_box(&self, corners: [f64; 4], zoom: u8) -> Result<Vec<Item>, String> {
                    items(self.0.get_clusters(corners, zoom))
                }

                fn within(&self, zoom: u8, x: f64, y: f64, radius: f64) -> Vec<usize> {
                    self.0.trees[&self.0.limit_zoom(zoom)].within(x, y, radius)
                }

                fn slots(node_size: usize, points: &[[f64; 2]]) -> Vec<usize> {
                    index(node_size, points).ids
                }

                fn index_within(size: usize, points: &[[f64; 2]], query: [f64; 3]) -> Vec<usize> {
                    let [x, y, radius] = query;
                    index(size, points).within(x, y, radius)
                }

                fn index_range(size: usize, points: &[[f64; 2]], corners: [f64; 4]) -> Vec<usize> {
                    let [min_x, min_y, max_x, max_y] = corners;
                    index(size, points).range(min_x, min_y, max_x, max_y)
                }

                fn normalize(range: &Range, v: f64) -> f64 {
                    data_range(range).normalize(v)
                }

                fn denormalize(range: &Range, v: f64) -> f64 {
                    data_range(range).denormalize(v)
                }

                fn set_entry(&mut self, zoom: usize, place: usize, entry: Entry) {
                    let tree = self.0.trees.get_mut(&zoom).expect("a table");
                    tree.data[place * 6..][..6].copy_from_slice(&row(entry));
                }

                fn set_slot(&mut self, zoom: usize, slot: usize, place: usize) {
                    self.0.trees.get_mut(&zoom).expect("a table").ids[slot] = place;
                }

                fn drop_table(&mut self, zoom: usize) {
                    self.0.trees.remove(&zoom).expect("a table");
                }
            }
        }
    };
}

judge!(untouched, oracle_untouched, "untouched");
judge!(ringed, oracle_ringed, "ringed");
judge!(patched, oracle_patched, "patched");
judge!(counted, oracle_counted, "counted");

pub use counted::Build as Counted;
pub use oracle_counted::{tests, Test};
pub use patched::Build as Patched;
pub use ringed::Build as Ringed;
pub use untouched::Build as Untouched;
