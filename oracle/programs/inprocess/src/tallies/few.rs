//! Tables so large that few marks are tried first, in which tiles hold one entry, a few and many, and entries whose mark is
//! another's; as a build made them, and with slots that name another's place, no place, or an entry that cannot be listed.

use super::port_says;
use crate::{
    report::{other, Group},
    Form,
};
use asked::Build;
use options::{Options, Plane, UNIT, USUAL};
use questions::{home, tally};
use reachvolem::lent::Reply;
use splitmix::Splitmix;

/// How many builds there are, in the short form and in the full one, and how many tiles are asked of each.
const BUILDS: [usize; 2] = [4, 40];
const TILES: usize = 1_500;

/// So many places are as many as there are few marks: a place and the one that is so much further on share a mark.
const FEW: usize = 8_192;

/// How many slots of a table are changed.
const CHANGED: usize = 400;

/// The groups.
pub fn run(form: Form, source: &mut Splitmix) -> Vec<Group> {
    let mut whole = Group::new("tallies, large tables");
    let mut sums = Group::new("tallies, all tiles of zoom 8 of large tables");
    let mut changed = Group::new("tallies, large tables with changed slots");
    for number in 0..form.of(BUILDS) {
        let mut build = build(number, source);
        let all = (0..1 << 8).flat_map(|y| (0..1 << 8).map(move |x| (8, x, y)));
        let sum: usize = all.map(|tile| compare(&build, tile, &mut whole)).sum();
        sums.compare(|| build.name(), other("sum", build.state.count as usize, sum));
        around(&build, source, &mut whole);
        change(&mut build, source);
        around(&build, source, &mut changed);
    }
    vec![whole, sums, changed]
}

/// Lamps that join at zoom 0 alone. Most after the first 8,192 lie beside one whose mark they share in the table of zoom 7, and
/// at forty spots lie dozens.
fn build(number: usize, source: &mut Splitmix) -> Build {
    let node_size = [64, 8, 1][number % 3];
    let options = Options { max_zoom: 6, min_points: 255, radius: 20.0, node_size, ..USUAL };
    let options = Options { plane: Plane::Cartesian(UNIT), ..options };
    let count = 2 * FEW + source.below(500) as usize;
    let mut points = [Vec::new(), Vec::new()];
    for lamp in 0..count {
        let spot = match lamp.checked_sub(FEW) {
            Some(before) if lamp % 3 > 0 => {
                points.each_ref().map(|column: &Vec<f64>| column[before])
            }
            _ if lamp % 5 == 0 => [source.below(40) as f64 / 40.0, 0.5],
            _ => [source.unit(), source.unit()],
        };
        for (column, at) in points.iter_mut().zip(spot) {
            column.push((at + 1e-5 * source.unit()).min(1.0));
        }
    }
    Build::of(format!("{count} points that share marks"), options, points)
}

/// Tiles around entries, at the zooms 6 to 12.
fn around(build: &Build, source: &mut Splitmix, group: &mut Group) {
    for _ in 0..TILES {
        let z = 6 + source.below(7) as u8;
        let table = build.state.positions(build.state.zoom_used(z));
        let at = table.start + source.below(table.len() as u64) as usize;
        let inside = |c: f64| if (0.0..=1.0).contains(&c) { home(z, c) } else { 0 };
        let [x, y] = [build.columns.x[at], build.columns.y[at]].map(inside);
        compare(build, (z, x, y), group);
    }
}

/// Holds the port's tally of a tile to the reference's. The port's.
fn compare(build: &Build, (z, x, y): (u8, u32, u32), group: &mut Group) -> usize {
    let lent = build.columns.lent();
    let expected = match tally(&build.state, &lent, z, x, y) {
        Ok(sum) => Reply { number: 0, carried: sum as usize },
        Err(refusal) => Reply { number: refusal as u32, carried: 0 },
    };
    let reply = port_says(&build.state, &lent, z, x, y);
    group.compare(|| format!("{}, {z} {x} {y}", build.name()), other("reply", expected, reply));
    reply.carried
}

/// Slots that name the place of another, or that of its mark; a few that name no place, and entries outside.
fn change(build: &mut Build, source: &mut Splitmix) {
    build.what += ", with changed slots";
    let zooms: Vec<usize> = (build.state.coarsest()..=build.state.finest()).collect();
    for number in 0..CHANGED * zooms.len() {
        let at = build.state.positions(zooms[number % zooms.len()]);
        let [one, two] = [(); 2].map(|()| at.start + source.below(at.len() as u64) as usize);
        let columns = &mut build.columns;
        match source.below(40) {
            0 => columns.ids[one] = at.len() as u32 + source.below(3) as u32,
            1 => columns.y[one] = source.pick(&[f64::NAN, 1.5, -0.25]),
            2..=9 => columns.ids[one] = columns.ids[two],
            10..=24 => columns.ids[one] = ((one - at.start + FEW) % at.len()) as u32,
            // The slot beside it, which lies near.
            _ => columns.ids[one] = columns.ids[(one + 1).min(at.end - 1)],
        }
    }
}
