//! The questions to a build: the port beside the untouched Rust's own calls, over the same tables. The tables are
//! the port's, and stand in the Rust's public fields too, so that both answer the same. The Rust's calls make
//! features, but for the ring, which is its search alone; so is a box once more. Last come both searches alone on
//! both sides.

use crate::{
    clock::timed,
    points::{Points, SHAPES},
    port,
    rounds::{measured, Found, Side},
    table::Times,
    Size,
};
use columns::Lent;
use options::USUAL;
use oracle_untouched::KDBush;
use reachvolem::lent::{Asked, Index, State};
use rust_builds::{
    data,
    untouched::{unloaded, Supercluster},
};
use splitmix::Splitmix;
use std::f64::consts::PI;

/// The sides beside the port.
const TIMES: Times = Times(&["untouched"]);

/// About how many answers a box or a ring has, and how many of them are in one measurement.
pub const AREAS: [[usize; 2]; 4] = [[1, 20_000], [12, 10_000], [200, 2_000], [3_000, 200]];

/// The zooms of tiles, and how many tiles are in one measurement.
const TILES: [(u8, usize); 3] = [(3, 200), (8, 2_000), (14, 10_000)];

/// Of leaves: about how many lamps a cluster has, limit, offset, and how many clusters are in one measurement. A
/// build that has no such cluster is not measured.
const LEAVES: [(u32, u32, u32, usize); 5] = [
    (10, 10, 0, 10_000),
    (100, 10, 0, 5_000),
    (100, 10, 50, 5_000),
    (100, u32::MAX, 0, 2_000),
    (1_000, u32::MAX, 0, 200),
];

/// How many clusters are asked for their children, and for their expansion zoom.
const CLUSTERS: usize = 10_000;

/// The table of the points themselves.
pub const FINEST: u8 = USUAL.max_zoom + 1;

/// The same build on both sides.
pub struct Both {
    port: reachvolem::Supercluster,
    rust: Supercluster,
}

/// A line for each question and size; or what differed.
pub fn run(size: &Size) -> Result<(), String> {
    for shape in SHAPES {
        for [count, rounds] in size.loads {
            println!();
            println!("questions to a build of {count} points, {}", shape.name());
            println!();
            TIMES.head("answers");
            let both = Both::of(&shape.points(*count));
            let bench = Bench { both, count: *count, rounds: *rounds, fewer: size.fewer };
            bench.run()?;
        }
    }
    Ok(())
}

impl Both {
    /// These points, built by the port.
    pub fn of(points: &Points) -> Both {
        let port = port::loaded(points);
        let State { starts, lens, .. } = port.state();
        let lent = port::columns(&port);
        let mut rust = unloaded(&USUAL);
        rust.points = rust_builds::features(&points.xs, &points.ys);
        for zoom in usize::from(USUAL.min_zoom)..=usize::from(FINEST) {
            rust.trees.insert(zoom, tree(&lent, starts[zoom] as usize, lens[zoom] as usize));
        }
        Both { port, rust }
    }

    /// The build as the port is lent it.
    pub fn asked(&self) -> Asked<'_> {
        *self.port.tables().asked()
    }

    /// The index of the finest table, which stands first in the columns.
    fn finest(&self) -> Index<'_> {
        let (count, columns) = (self.port.count() as usize, self.port.columns());
        let (ids, coords) = (&columns.ids[..count], &columns.coords[..2 * count]);
        Index { node_size: USUAL.node_size, count, ids, coords }
    }

    /// Ids of clusters with a num from one number to another, by chance; no more than there are.
    fn clusters(&self, nums: [u32; 2], most: usize, source: &mut Splitmix) -> Vec<u32> {
        let columns = self.port.columns();
        let entries = columns.id.iter().zip(columns.num);
        let fitting = entries.filter(|(_, num)| (nums[0]..=nums[1]).contains(*num));
        let ids: Vec<u32> = fitting.map(|(id, _)| *id).collect();
        match ids.is_empty() {
            true => ids,
            false => (0..most).map(|_| source.pick(&ids)).collect(),
        }
    }
}

/// A table as the Rust keeps it.
fn tree(columns: &Lent, start: usize, length: usize) -> KDBush {
    let mut tree = KDBush::new(0, USUAL.node_size);
    let end = start + length;
    tree.ids = columns.ids[start..end].iter().map(|place| *place as usize).collect();
    tree.coords = columns.coords[2 * start..2 * end].to_vec();
    tree.data = (start..end).flat_map(|at| data(&columns.entry(at))).collect();
    tree
}

/// The measurements of one build.
struct Bench {
    both: Both,
    count: usize,
    rounds: usize,
    fewer: usize,
}

impl Bench {
    fn run(&self) -> Result<(), String> {
        let mut source = Splitmix(2);
        self.areas(&mut source)?;
        let clusters = self.both.clusters([2, u32::MAX], CLUSTERS / self.fewer, &mut source);
        self.by_id(&clusters)?;
        for (num, limit, offset, most) in LEAVES {
            let nums = [num / 2, num + num / 2];
            let ids = self.both.clusters(nums, most / self.fewer, &mut source);
            self.leaves(&ids, num, limit, offset)?;
        }
        TILES.iter().try_for_each(|(z, most)| self.tiles(*z, most / self.fewer, &mut source))
    }

    /// Boxes and rings in the finest table.
    fn areas(&self, source: &mut Splitmix) -> Result<(), String> {
        let (asked, rust) = (self.both.asked(), &self.both.rust);
        let mut out = vec![0; self.count];
        for [answers, most] in AREAS {
            let area = answers as f64 / self.count as f64;
            let (half, radius) = (area.sqrt() / 2.0, (area / PI).sqrt());
            let spots: Vec<[f64; 2]> =
                (0..most / self.fewer).map(|_| [source.unit(), source.unit()]).collect();
            let port = |spot| asked.in_box(FINEST, corners(spot, half), &mut out).carried;
            self.line("box", &spots, port, |spot| {
                rust.get_clusters(corners(spot, half), FINEST).map_or(0, |found| found.len())
            })?;
            let index = &rust.trees[&usize::from(FINEST)];
            let port = |spot| asked.in_box(FINEST, corners(spot, half), &mut out).carried;
            self.line("box, beside the search alone", &spots, port, |spot| {
                searched(index, corners(spot, half))
            })?;
            let port = |[x, y]: [f64; 2]| asked.ring(FINEST, [x, y, radius], &mut out).carried;
            self.line("ring", &spots, port, |[x, y]| index.within(x, y, radius).len())?;
            self.searches(&spots, half, radius)?;
        }
        Ok(())
    }

    /// The searches alone.
    fn searches(&self, spots: &[[f64; 2]], half: f64, radius: f64) -> Result<(), String> {
        let (finest, index) = (self.both.finest(), &self.both.rust.trees[&usize::from(FINEST)]);
        let mut out = vec![0; self.count];
        let port = |spot| finest.range(corners(spot, half), &mut out).carried;
        self.line("range alone", spots, port, |spot| searched(index, corners(spot, half)))?;
        let port = |[x, y]: [f64; 2]| finest.within([x, y, radius], &mut out).carried;
        self.line("within alone", spots, port, |[x, y]| index.within(x, y, radius).len())
    }

    /// Children and expansion zooms.
    fn by_id(&self, ids: &[u32]) -> Result<(), String> {
        let (asked, rust) = (self.both.asked(), &self.both.rust);
        let mut out = vec![0; self.count];
        let port = |id| asked.children(id, &mut out).carried;
        self.line("children", ids, port, |id| {
            rust.get_children(id as usize).map_or(0, |found| found.len())
        })?;
        let port = |id| asked.expansion_zoom(id).carried;
        self.line("expansion zoom (its number)", ids, port, |id| {
            rust.get_cluster_expansion_zoom(id as usize)
        })
    }

    /// Leaves of clusters with about so many lamps.
    fn leaves(&self, ids: &[u32], num: u32, limit: u32, offset: u32) -> Result<(), String> {
        let (asked, rust) = (self.both.asked(), &self.both.rust);
        let mut out = vec![0; self.count];
        let what = match limit {
            u32::MAX => format!("leaves, all of about {num}"),
            _ => format!("leaves, {limit} from {offset} of about {num}"),
        };
        let port = |id| asked.leaves(id, limit, offset, &mut out).carried;
        self.line(&what, ids, port, |id| {
            rust.get_leaves(id as usize, limit as usize, offset as usize).len()
        })
    }

    /// Tiles of a zoom that have a lamp in them, and their tallies beside the Rust's tile.
    fn tiles(&self, z: u8, most: usize, source: &mut Splitmix) -> Result<(), String> {
        let (asked, rust) = (self.both.asked(), &self.both.rust);
        let columns = asked.columns;
        let z2 = (1_u64 << z) as f64;
        let mut tile = |_| {
            let lamp = source.below(self.count as u64) as usize;
            let at = |v: f64| (v * z2).min(z2 - 1.0) as u32;
            (z, at(columns.x[lamp]), at(columns.y[lamp]))
        };
        let tiles: Vec<(u8, u32, u32)> = (0..most).map(&mut tile).collect();
        let [mut px, mut py] = [(); 2].map(|()| vec![0; self.count]);
        let mut places = vec![0; self.count];
        let theirs = |(z, x, y)| {
            rust.get_tile(z, f64::from(x), f64::from(y)).map_or(0, |tile| tile.features.len())
        };
        let port = |at| asked.tile(at, &mut places, &mut px, &mut py).carried;
        self.line(&format!("tile, zoom {z}"), &tiles, port, theirs)?;
        // The tally is not the Rust's: both count the tiles.
        let port = |at| usize::from(asked.tally(at).number == 0);
        let theirs = |at| usize::from(theirs(at) > 0);
        self.line(&format!("tally, zoom {z}, beside the Rust's tile"), &tiles, port, theirs)
    }

    /// Measures these questions by both sides, which must count the same, and prints the line.
    fn line<Q: Copy>(
        &self,
        what: &str,
        questions: &[Q],
        port: impl FnMut(Q) -> usize,
        rust: impl FnMut(Q) -> usize,
    ) -> Result<(), String> {
        if questions.is_empty() {
            return Ok(());
        }
        let (mut port, mut rust) = (port, rust);
        let mut sides = [
            Side::new("port", || counted(questions, &mut port)),
            Side::new("untouched", || counted(questions, &mut rust)),
        ];
        let measured = measured(self.rounds, &mut sides).map_err(|why| format!("{what}: {why}"))?;
        let answers = measured.found.count as f64 / questions.len() as f64;
        TIMES.line(what, &format!("{answers:.1}"), questions.len(), &measured.times);
        Ok(())
    }
}

/// The box around a spot, with half its side.
pub fn corners([x, y]: [f64; 2], half: f64) -> [f64; 4] {
    [x - half, y - half, x + half, y + half]
}

/// How many the Rust's search finds in a box.
fn searched(index: &KDBush, [min_x, min_y, max_x, max_y]: [f64; 4]) -> usize {
    index.range(min_x, min_y, max_x, max_y).len()
}

/// Asks every question; the sum of what each counts, and how long that took.
pub fn counted<Q: Copy>(questions: &[Q], ask: &mut impl FnMut(Q) -> usize) -> (Found, u64) {
    let (count, nanoseconds) = timed(|| questions.iter().map(|question| ask(*question)).sum());
    (Found { count, members: 0, order: None }, nanoseconds)
}
