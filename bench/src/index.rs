//! The index: its build, both searches, and the cursor.

use crate::{
    clock::timed,
    points::{clustered, in_order, uniform, Points},
    rounds::{measured, Found, Side},
    table::Times,
    Size,
};
use reachvolem::lent::{self, Index as Lent, Reply, NO_SLOT};
use splitmix::Splitmix;
use std::f64::consts::PI;

/// The sides beside the port.
const TIMES: Times = Times(&["untouched", "patched"]);

/// The usual node size.
const NODE_SIZE: usize = 64;

/// About how many answers a query has, and how many such queries are in one measurement.
const ASKED: [[usize; 2]; 4] = [[1, 100_000], [12, 60_000], [200, 15_000], [3_000, 2_000]];

/// The port's columns of an index.
struct Columns {
    ids: Vec<u32>,
    coords: Vec<f64>,
}

/// The same index on both sides.
struct Both {
    port: Columns,
    rust: oracle_untouched::KDBush,
}

impl Both {
    fn lent(&self) -> Lent<'_> {
        let Columns { ids, coords } = &self.port;
        Lent { node_size: NODE_SIZE, count: ids.len(), ids, coords }
    }
}

/// Everything, a line of the table for each; or what differed.
pub fn run(size: &Size) -> Result<(), String> {
    let mut source = Splitmix(1);
    println!("{} points, node_size {NODE_SIZE}, {} rounds", size.points, size.rounds);
    println!();
    TIMES.head("answers");
    let uniform = uniform(size.points, &mut source);
    build("build, uniform", &uniform, size)?;
    build("build, clustered", &clustered(size.points, &mut source), size)?;
    build("build, in order of x", &in_order(&uniform), size)?;
    let both = Both { port: built(&uniform), rust: untouched(&uniform) };
    let circles = ASKED.map(|asked| circles(asked, size, &mut source));
    circles.iter().try_for_each(|circles| within(&both, circles, size))?;
    circles.iter().try_for_each(|circles| cursor(&both, circles, size))?;
    let boxes = ASKED.map(|asked| boxes(asked, size, &mut source));
    boxes.iter().try_for_each(|boxes| range(&both, boxes, size))
}

/// The port's index of these points, in new columns.
fn built(points: &Points) -> Columns {
    let count = points.xs.len();
    let mut columns = Columns { ids: vec![0; count], coords: vec![0.0; 2 * count] };
    let Columns { ids, coords } = &mut columns;
    let reply = lent::build(NODE_SIZE, &points.xs, &points.ys, ids, coords);
    assert_eq!(reply.number, 0, "a build that is accepted");
    columns
}

/// What a build left: the slots as a set, and in their order.
fn arrangement(slots: impl Iterator<Item = (u64, f64, f64)>, in_order: bool) -> Found {
    let (mut count, mut members, mut order) = (0, 0_u64, 0_u64);
    for (id, x, y) in slots {
        count += 1;
        let slot = (id ^ x.to_bits().rotate_left(21) ^ y.to_bits().rotate_left(42))
            .wrapping_mul(0x9e37_79b9_7f4a_7c15);
        members = members.wrapping_add(slot ^ (slot >> 29));
        order = order.rotate_left(5) ^ slot;
    }
    Found { count, members, order: in_order.then_some(order) }
}

macro_rules! rust_index {
    ($name:ident, $side:ident, $rust:ident, $in_order:literal) => {
        /// The Rust's index with these points added, not yet built.
        fn $name(points: &Points) -> $rust::KDBush {
            let mut index = $rust::KDBush::new(points.xs.len(), NODE_SIZE);
            for (x, y) in points.xs.iter().zip(&points.ys) {
                index.add_point(*x, *y);
            }
            index
        }

        /// Its build as a side of the measurement.
        fn $side(points: &Points) -> (Found, u64) {
            let mut index = $name(points);
            let ((), nanoseconds) = timed(|| index.build_index());
            let coords = index.coords.chunks(2);
            let slots = index.ids.iter().zip(coords).map(|(id, at)| (*id as u64, at[0], at[1]));
            (arrangement(slots, $in_order), nanoseconds)
        }
    };
}

rust_index!(untouched_points, untouched_build, oracle_untouched, false);
rust_index!(patched_points, patched_build, oracle_patched, true);

/// The untouched Rust's index of these points.
fn untouched(points: &Points) -> oracle_untouched::KDBush {
    let mut index = untouched_points(points);
    index.build_index();
    index
}

/// The port's build as a side of the measurement.
fn port_build(points: &Points) -> (Found, u64) {
    let (columns, nanoseconds) = timed(|| built(points));
    let coords = columns.coords.chunks(2);
    let slots = columns.ids.iter().zip(coords).map(|(id, at)| (u64::from(*id), at[0], at[1]));
    (arrangement(slots, true), nanoseconds)
}

/// One line: the build of these points, by all three.
fn build(what: &str, points: &Points, size: &Size) -> Result<(), String> {
    let mut sides = [
        Side::new("port", || port_build(points)),
        Side::new("untouched", || untouched_build(points)),
        Side::new("patched", || patched_build(points)),
    ];
    let measured = measured(size.rounds, &mut sides).map_err(|why| format!("{what}: {why}"))?;
    TIMES.line(what, "", 1, &measured.times);
    Ok(())
}

/// What some searches found: the number of places, and their sum.
#[derive(Default)]
struct Sum {
    count: usize,
    places: u64,
}

/// Asks every query; what all of them found, and how long that took.
fn asked<Q: Copy>(queries: &[Q], mut ask: impl FnMut(Q, &mut Sum)) -> (Found, u64) {
    let (sum, nanoseconds) = timed(|| {
        let mut sum = Sum::default();
        queries.iter().for_each(|query| ask(*query, &mut sum));
        sum
    });
    (Found { count: sum.count, members: sum.places, order: None }, nanoseconds)
}

/// A list of the port added to a sum.
fn add_list(reply: Reply, out: &[u32], sum: &mut Sum) {
    assert_eq!(reply.number, 0, "a search that is answered");
    sum.count += reply.carried;
    sum.places += out[..reply.carried].iter().map(|place| u64::from(*place)).sum::<u64>();
}

/// A list of the Rust added to a sum.
fn add_vector(places: &[usize], sum: &mut Sum) {
    sum.count += places.len();
    sum.places += places.iter().map(|place| *place as u64).sum::<u64>();
}

/// Circles anywhere in the unit square, of such a radius that they have about so many answers.
fn circles([answers, queries]: [usize; 2], size: &Size, source: &mut Splitmix) -> Vec<[f64; 3]> {
    let radius = (answers as f64 / (PI * size.points as f64)).sqrt();
    (0..queries / size.fewer).map(|_| [source.unit(), source.unit(), radius]).collect()
}

/// Boxes anywhere in the unit square, of such a side that they have about so many answers.
fn boxes([answers, queries]: [usize; 2], size: &Size, source: &mut Splitmix) -> Vec<[f64; 4]> {
    let half = (answers as f64 / size.points as f64).sqrt() / 2.0;
    let one = |_| {
        let [x, y] = [source.unit(), source.unit()];
        [x - half, y - half, x + half, y + half]
    };
    (0..queries / size.fewer).map(one).collect()
}

/// One line: `within` as a list.
fn within(both: &Both, circles: &[[f64; 3]], size: &Size) -> Result<(), String> {
    let (lent, mut out) = (both.lent(), vec![0; size.points]);
    let port = || asked(circles, |circle, sum| add_list(lent.within(circle, &mut out), &out, sum));
    searches("within", port, || untouched_within(both, circles), circles.len(), size)
}

/// One line: `within` by the cursor, beside the Rust's list.
fn cursor(both: &Both, circles: &[[f64; 3]], size: &Size) -> Result<(), String> {
    let lent = both.lent();
    let walk = |circle, sum: &mut Sum| {
        let mut slot = lent.within_first(circle).carried;
        while slot != NO_SLOT {
            sum.count += 1;
            sum.places += u64::from(lent.ids[slot]);
            slot = lent.within_after(circle, slot).carried;
        }
    };
    let port = || asked(circles, walk);
    searches("within, by the cursor", port, || untouched_within(both, circles), circles.len(), size)
}

/// One line: `range` as a list.
fn range(both: &Both, boxes: &[[f64; 4]], size: &Size) -> Result<(), String> {
    let (lent, mut out) = (both.lent(), vec![0; size.points]);
    let port = || asked(boxes, |corners, sum| add_list(lent.range(corners, &mut out), &out, sum));
    let rust = || {
        asked(boxes, |[min_x, min_y, max_x, max_y], sum| {
            add_vector(&both.rust.range(min_x, min_y, max_x, max_y), sum)
        })
    };
    searches("range", port, rust, boxes.len(), size)
}

/// The untouched Rust's `within`, as a side of a measurement.
fn untouched_within(both: &Both, circles: &[[f64; 3]]) -> (Found, u64) {
    asked(circles, |[x, y, radius], sum| add_vector(&both.rust.within(x, y, radius), sum))
}

/// Measures so many queries by both sides and prints the line.
fn searches(
    what: &str,
    port: impl FnMut() -> (Found, u64),
    rust: impl FnMut() -> (Found, u64),
    queries: usize,
    size: &Size,
) -> Result<(), String> {
    let mut sides = [Side::new("port", port), Side::new("untouched", rust)];
    let measured = measured(size.rounds, &mut sides).map_err(|why| format!("{what}: {why}"))?;
    let answers = measured.found.count as f64 / queries as f64;
    TIMES.line(what, &format!("{answers:.1}"), queries, &measured.times);
    Ok(())
}
