//! Tables of clusters by chance. Their entries lie so close that every search for children finds all of them;
//! parents are clusters of their table, and clusters name some of which there are children.

use crate::Build;
use columns::{Columns, Entry};
use options::{corners, Options, Plane};
use points::{Points, Shape};
use questions::{encoded, State, ZOOMS};
use splitmix::Splitmix;

/// Few tables with up to a dozen entries each: clusters with many children.
pub fn wide(source: &mut Splitmix) -> Build {
    let count = 1 + source.below(12) as usize;
    let least = source.pick(&[0, 0, 1, 5, 27]);
    let [min_zoom, max_zoom] = [least, least + source.below(4) as u8];
    let lens = |source: &mut Splitmix| 1 + source.below(count as u64) as usize;
    made("wide tables by chance", [min_zoom, max_zoom], count, lens, source)
}

/// Up to 32 tables with one or two entries each: clusters in a row.
pub fn deep(source: &mut Splitmix) -> Build {
    let count = 1 + source.below(4) as usize;
    let [min_zoom, max_zoom] = source.pick(&[[0, 30], [0, 12], [3, 9], [20, 30], [0, 5]]);
    let lens = |source: &mut Splitmix| source.pick(&[1, 1, 1, 2]).min(count);
    made("deep tables by chance", [min_zoom, max_zoom], count, lens, source)
}

/// The tables, the finest first.
fn made(
    what: &str,
    [min_zoom, max_zoom]: [u8; 2],
    count: usize,
    length: impl Fn(&mut Splitmix) -> usize,
    source: &mut Splitmix,
) -> Build {
    let ordinary = corners::ordinary(source);
    let node_size = source.pick(&[1, 2, 3, 64]);
    let options =
        Options { min_zoom, max_zoom, radius: 512.0, extent: 512.0, node_size, ..ordinary };
    let state = State { options, count: count as u32, starts: [0; ZOOMS], lens: [0; ZOOMS] };
    let mut tables = Tables { state, columns: Columns::default(), parents: Vec::new() };
    for zoom in (tables.state.coarsest()..=tables.state.finest()).rev() {
        let finest = zoom == tables.state.finest();
        let length = if finest { count } else { length(source) };
        tables.table(zoom, length, source);
    }
    let Tables { state, columns, .. } = tables;
    let (xs, ys) = (columns.x[..count].to_vec(), columns.y[..count].to_vec());
    let mut points = Points { shape: Shape::AllEqual, xs, ys }.placed(&options.plane);
    let mut ys = points[1].clone();
    let on_the_globe = matches!(options.plane, Plane::Globe);
    if on_the_globe {
        // The equator, of which y is known to the bit.
        (points[1], ys) = (vec![0.0; count], vec![0.5; count]);
    }
    let energies = columns.energy[..count].to_vec();
    let (what, listed) = (what.to_string(), Vec::new());
    Build { what, points, ys, energies, on_the_globe, state, columns, listed }
}

/// Tables on their way, and the ids of clusters that have children in them.
struct Tables {
    state: State,
    columns: Columns,
    parents: Vec<u32>,
}

impl Tables {
    /// One more table.
    fn table(&mut self, zoom: usize, length: usize, source: &mut Splitmix) {
        let start = self.columns.x.len();
        self.state.starts[zoom] = start as u32;
        self.state.lens[zoom] = length as u32;
        let known = self.parents.len();
        // Few clusters have all the children.
        let origins: Vec<usize> =
            (0..1 + source.below(3)).map(|_| source.below(length as u64) as usize).collect();
        for _ in 0..length {
            let parent = match source.below(8) {
                0 => u32::MAX,
                _ => encoded(self.state.count, source.pick(&origins), zoom),
            };
            self.entry(parent, known, source);
        }
        self.slots(start, length, source);
    }

    /// One more entry: a lamp, or one of the known clusters.
    fn entry(&mut self, parent: u32, known: usize, source: &mut Splitmix) {
        let count = u64::from(self.state.count);
        let cluster = known > 0 && source.below(8) < 5;
        let (id, num) = match cluster {
            true => {
                let num = source.pick(&[2, 2, 3, count as u32 + 1, count as u32 / 2 + 2, u32::MAX]);
                (source.pick(&self.parents[..known]), num)
            }
            false => (source.below(count) as u32, source.pick(&[1, 1, 1, 0])),
        };
        if parent != u32::MAX {
            self.parents.push(parent);
        }
        let [x, y] = [near(source), near(source)];
        let seen = source.bits() as u8;
        // Any energy: no question looks at it.
        let energy = Splitmix(x.to_bits() ^ u64::from(id)).bits();
        self.columns.push_entry(&Entry { x, y, seen, id, parent, num, energy });
    }

    /// The index: the entries, each in one slot, in any order.
    fn slots(&mut self, start: usize, length: usize, source: &mut Splitmix) {
        let mut places: Vec<u32> = (0..length as u32).collect();
        for slot in (1..length).rev() {
            places.swap(slot, source.below(slot as u64 + 1) as usize);
        }
        for place in places {
            let at = start + place as usize;
            self.columns.ids.push(place);
            self.columns.coords.extend([self.columns.x[at], self.columns.y[at]]);
        }
    }
}

/// A coordinate: most often the middle, otherwise close to it, so that a radius of 2^-30 does not always reach.
fn near(source: &mut Splitmix) -> f64 {
    match source.below(6) {
        0 => 0.5 + (source.unit() - 0.5) * 0.5_f64.powi(source.below(40) as i32),
        _ => 0.5,
    }
}
