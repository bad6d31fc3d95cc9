//! The owner of a lamp: the question beside climbing in the tables. A climb to one lamp's owner goes by maps from an id to its place,
//! one for each table, which are made before; how long that takes stands in a line of its own, beside all owners of all zooms as the
//! column has them. All owners of a zoom stand beside the climb of all lamps at once, as the package made it before there was the
//! column.
//!
//! Last stands a new figure of one lamp, posted to a build, beside a new load with all the figures that were posted. Both have to leave
//! the same energies.

use crate::{
    clock::timed,
    points::{Points, SHAPES},
    port,
    questions::FINEST,
    rounds::{measured, median, Found, Side},
    table::{growth_head, growth_line, Times},
    Size,
};
use options::{MOST_ENERGY, USUAL};
use reachvolem::{lent::PARENT_UNSET, Supercluster};
use splitmix::Splitmix;
use std::collections::HashMap;

/// The zooms that are asked, and how many lamps are in one measurement. In the finest table a lamp is its own owner.
const ZOOMS: [u8; 3] = [16, 8, 0];
const LAMPS: usize = 100_000;

/// How many rounds there are at most beside new loads.
const LOADS: usize = 3;

/// The sides beside the port.
const ONE: Times = Times(&["a climb by maps"]);
const ALL: Times = Times(&["a climb of all lamps"]);

/// Both tables for each build, and one of posts for each shape; or what differed.
pub fn run(size: &Size) -> Result<(), String> {
    let counts: Vec<usize> = size.loads.iter().map(|[count, _]| *count).collect();
    for shape in SHAPES {
        let mut took = Vec::new();
        for [count, rounds] in size.loads {
            println!();
            println!("owners in a build of {count} points, {}", shape.name());
            let points = shape.points(*count);
            let lamps = port::loaded(&points);
            println!();
            ONE.head("lamps");
            one_by_one(&lamps, LAMPS / size.fewer, *rounds)?;
            println!();
            ALL.head("lamps");
            all_at_once(&lamps, *rounds)?;
            took.push(posts(lamps, points, LAMPS / size.fewer, *rounds.min(&LOADS))?);
        }
        println!();
        growth_head(&format!("a new figure, {}", shape.name()), &counts);
        growth_line("a post", took.iter().map(|[post, _]| *post));
        growth_line("a new load", took.iter().map(|[_, load]| *load));
    }
    Ok(())
}

/// The nanoseconds of one post, of figures to lamps by chance, and of a new load with all of these.
fn posts(
    mut lamps: Supercluster,
    mut points: Points,
    most: usize,
    rounds: usize,
) -> Result<[f64; 2], String> {
    let mut source = Splitmix(6);
    let mut below = |bound: u64| source.below(bound);
    let count = u64::from(lamps.count());
    let readings: Vec<(u32, u64)> =
        (0..most).map(|_| (below(count) as u32, below(MOST_ENERGY + 1))).collect();
    for (lamp, figure) in &readings {
        points.energies[*lamp as usize] = *figure;
    }
    let post_all = |lamps: &mut Supercluster| {
        readings.iter().for_each(|(lamp, figure)| lamps.post(*lamp, *figure).expect("posted"));
    };
    let mut sides = [
        Side::new("posts", || {
            let ((), nanoseconds) = timed(|| post_all(&mut lamps));
            (energies(&lamps), nanoseconds)
        }),
        Side::new("a new load", || {
            let (lamps, nanoseconds) = timed(|| port::loaded(&points));
            (energies(&lamps), nanoseconds)
        }),
    ];
    let times = measured(rounds, &mut sides).map_err(|why| format!("posts: {why}"))?.times;
    let [posts, load] = [0, 1].map(|side| median(&times[side]) as f64);
    Ok([posts / most as f64, load])
}

/// The energies of all tables.
fn energies(lamps: &Supercluster) -> Found {
    let column = lamps.columns().energy;
    let order = mixed(column.iter().copied());
    Found { count: column.len(), members: 0, order: Some(order) }
}

/// One lamp after the other, by chance, at each of the zooms.
fn one_by_one(lamps: &Supercluster, most: usize, rounds: usize) -> Result<(), String> {
    let mut source = Splitmix(4);
    let asked: Vec<u32> =
        (0..most).map(|_| source.below(u64::from(lamps.count())) as u32).collect();
    let maps = Maps::of(lamps);
    for zoom in ZOOMS {
        let what = format!("owner, zoom {zoom}");
        let question = |lamp| lamps.owner(lamp, zoom).expect("an owner") as usize;
        let climb = |lamp| maps.owner(lamp, zoom);
        let mut sides = [
            Side::new("port", || summed(&asked, question)),
            Side::new("a climb by maps", || summed(&asked, climb)),
        ];
        let measured = measured(rounds, &mut sides).map_err(|why| format!("{what}: {why}"))?;
        ONE.line(&what, &asked.len().to_string(), asked.len(), &measured.times);
    }
    Ok(())
}

/// All owners of each of the zooms; then those of all zooms, beside the maps that a climb needs.
fn all_at_once(lamps: &Supercluster, rounds: usize) -> Result<(), String> {
    let count = lamps.count();
    let line = |what: &str, sides: &mut [Side]| {
        let measured = measured(rounds, sides).map_err(|why| format!("{what}: {why}"))?;
        ALL.line(what, &count.to_string(), 1, &measured.times);
        Ok(())
    };
    for zoom in ZOOMS {
        let mut sides = [
            Side::new("port", || listed(|| lamps.owners(zoom).expect("owners"))),
            Side::new("a climb of all lamps", || listed(|| climbed(lamps, zoom))),
        ];
        line(&format!("owners, zoom {zoom}"), &mut sides)?;
    }
    let zooms = || USUAL.min_zoom..=FINEST;
    let all = || zooms().map(|zoom| lamps.owners(zoom).expect("owners").len()).sum();
    let mut sides = [
        Side::new("port", || counted(all)),
        Side::new("maps", || counted(|| Maps::of(lamps).tables.len() * count as usize)),
    ];
    line("owners of all zooms, beside making the maps", &mut sides)
}

/// What a work counts, and how long it took.
fn counted(work: impl FnOnce() -> usize) -> (Found, u64) {
    let (count, nanoseconds) = timed(work);
    (Found { count, members: 0, order: None }, nanoseconds)
}

/// The sum of the places of these lamps' owners, and how long they took.
fn summed(lamps: &[u32], ask: impl Fn(u32) -> usize) -> (Found, u64) {
    counted(|| lamps.iter().map(|lamp| ask(*lamp)).sum())
}

/// The owners of all lamps, and how long they took.
fn listed(ask: impl FnOnce() -> Vec<u32>) -> (Found, u64) {
    let (owners, nanoseconds) = timed(ask);
    let order = mixed(owners.iter().map(|place| u64::from(*place)));
    (Found { count: owners.len(), members: 0, order: Some(order) }, nanoseconds)
}

/// One word of several, in their order.
fn mixed(words: impl Iterator<Item = u64>) -> u64 {
    words.fold(0, |mix, word| (mix.rotate_left(5) ^ word).wrapping_mul(0x9e37_79b9_7f4a_7c15))
}

/// The tables of a build, and for each of them where an id stands in it.
struct Maps<'a> {
    lamps: &'a Supercluster,
    /// By zoom.
    tables: Vec<HashMap<u32, u32>>,
}

impl Maps<'_> {
    fn of(lamps: &Supercluster) -> Maps<'_> {
        let columns = lamps.columns();
        let table = |zoom: u8| {
            let [start, length] = extent(lamps, zoom);
            columns.id[start..start + length].iter().copied().zip(0..).collect()
        };
        Maps { lamps, tables: (USUAL.min_zoom..=FINEST).map(table).collect() }
    }

    /// From table to table.
    fn owner(&self, lamp: u32, zoom: u8) -> usize {
        let columns = self.lamps.columns();
        let mut place = lamp as usize;
        for zoom in (zoom..FINEST).rev() {
            let at = extent(self.lamps, zoom + 1)[0] + place;
            let id = match columns.parent[at] {
                PARENT_UNSET => columns.id[at],
                parent => parent,
            };
            place = self.tables[usize::from(zoom - USUAL.min_zoom)][&id] as usize;
        }
        place
    }
}

/// Where a table starts and how long it is.
fn extent(lamps: &Supercluster, zoom: u8) -> [usize; 2] {
    let state = lamps.state();
    [state.starts, state.lens].map(|words| words[usize::from(zoom)] as usize)
}

/// The owner of each lamp, by climbing from the finest table: what the package did.
fn climbed(lamps: &Supercluster, zoom: u8) -> Vec<u32> {
    let mut owners: Vec<u32> = (0..lamps.count()).collect();
    let mut entries = lamps.table(FINEST).expect("a table");
    for zoom in (zoom..FINEST).rev() {
        let next = lamps.table(zoom).expect("a table");
        let mut by_id: Vec<(u32, u32)> =
            next.iter().zip(0..).map(|(entry, place)| (entry.id, place)).collect();
        by_id.sort_unstable();
        let place = |entry: &reachvolem::Entry| {
            let id = entry.parent.unwrap_or(entry.id);
            let at = by_id.binary_search_by_key(&id, |(id, _)| *id).expect("an owner");
            by_id[at].1
        };
        let places: Vec<u32> = entries.iter().map(place).collect();
        owners.iter_mut().for_each(|owner| *owner = places[*owner as usize]);
        entries = next;
    }
    owners
}
