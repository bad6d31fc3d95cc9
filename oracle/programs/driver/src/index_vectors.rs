//! Test vectors for kdbush.rs, made by calling the patched Rust: one case a line, in words of 16 lowercase hex
//! digits, each a number or the bits of a float.
//!
//!     node_size n   x y ..   id x y ..   k   kind a b c d m place ..
//!
//! The n points, the n slots of the arrangement, then k queries: kind 0 is `range` with least x, least y, greatest
//! x, greatest y, kind 1 is `within` with x, y, the radius and 0; then the m places that are answered. There are 68
//! cases of 1 to 601 points. The last ten are corners, SCOPE's three points and the like on both axes and sides, in an
//! index that is split and in one that is not; where it is split the untouched Rust skips something, or this stops.

use crate::plain::{ABOVE_QUARTER, BELOW_QUARTER};
use beside::judge::{Judge, Untouched};
use oracle_patched::KDBush;
use points::{Points, SHAPES};
use splitmix::Splitmix;
use std::io::{self, Write};

const NODE_SIZES: [usize; 5] = [1, 2, 3, 8, 64];
const LARGER: [usize; 5] = [50, 64, 100, 200, 601];
const QUERIES: usize = 4;
const SEED: u64 = 1;

/// A question to an index.
enum Query {
    /// Least x, least y, greatest x, greatest y.
    Range([f64; 4]),
    /// x and y of the centre, and the radius.
    Within([f64; 3]),
}

/// Writes the cases: each small count twice, then the larger ones, with node sizes and shapes in turn; then the
/// corners.
pub fn write(out: &mut impl Write) -> io::Result<()> {
    let mut source = Splitmix(SEED);
    let small = (1..=20).flat_map(|count| [count; 2]);
    let larger = LARGER.iter().flat_map(|count| vec![*count; if *count > 200 { 2 } else { 4 }]);
    for (number, count) in small.chain(larger).enumerate() {
        let node_size = NODE_SIZES[number % NODE_SIZES.len()];
        let shape = SHAPES[number % SHAPES.len()];
        let points = pairs(&points::made(shape, count, &mut source));
        // The kinds move on against the shapes.
        let first_kind = QUERIES * (number + number / SHAPES.len());
        let one = |turn| query(&points, first_kind + turn, &mut source);
        let queries: Vec<Query> = (0..QUERIES).map(one).collect();
        out.write_all(line(node_size, &points, &queries).as_bytes())?;
    }
    for node_size in [1, 64] {
        for line in corners(node_size) {
            out.write_all(line.as_bytes())?;
        }
    }
    out.flush()
}

/// SCOPE's corner: a ring that three points pass, two of which lie outside its rounded edge. Then the like on both axes
/// and on both sides, with more points, so that the index is split by either.
fn corners(node_size: usize) -> Vec<String> {
    let below = [BELOW_QUARTER, BELOW_QUARTER, 0.5].map(|x| [x, 0.5]);
    let mut all = vec![of_corner(node_size, &below, [1.0, 0.5, 0.75])];
    for (v, other, centre, radius) in
        [(BELOW_QUARTER, 0.5, 1.0, 0.75), (ABOVE_QUARTER, 0.0, -1.0, 1.25)]
    {
        let along_x = [vec![[v, 0.5]; 6], vec![[other, 0.5]; 3]].concat();
        let along_y: Vec<[f64; 2]> = along_x.iter().map(|[x, y]| [*y, *x]).collect();
        all.push(of_corner(node_size, &along_x, [centre, 0.5, radius]));
        all.push(of_corner(node_size, &along_y, [0.5, centre, radius]));
    }
    all
}

/// A case of a ring of which the untouched Rust skips something, if the index is split.
fn of_corner(node_size: usize, points: &[[f64; 2]], circle: [f64; 3]) -> String {
    let answered = Untouched::index_within(node_size, points, circle).len();
    let passing = Untouched::index_within(points.len(), points, circle).len();
    let is_split = points.len() > node_size + 1;
    assert_eq!(answered < passing, is_split, "{circle:?}: {answered} of {passing}");
    line(node_size, points, &[Query::Within(circle)])
}

/// The points, x and y together.
fn pairs(points: &Points) -> Vec<[f64; 2]> {
    points.xs.iter().zip(&points.ys).map(|(x, y)| [*x, *y]).collect()
}

/// The words of a case and a line feed.
fn line(node_size: usize, points: &[[f64; 2]], queries: &[Query]) -> String {
    let mut index = KDBush::new(points.len(), node_size);
    points.iter().for_each(|[x, y]| index.add_point(*x, *y));
    index.build_index();
    let mut words = vec![node_size as u64, points.len() as u64];
    words.extend(points.iter().flatten().map(|v| v.to_bits()));
    for (slot, id) in index.ids.iter().enumerate() {
        let at = [index.coords[2 * slot], index.coords[2 * slot + 1]];
        words.push(*id as u64);
        words.extend(at.map(f64::to_bits));
    }
    words.push(queries.len() as u64);
    words.extend(queries.iter().flat_map(|query| asked(&index, query)));
    words.iter().map(|word| format!("{word:016x}")).collect::<Vec<_>>().join(" ") + "\n"
}

/// The words of a query and of its answer.
fn asked(index: &KDBush, query: &Query) -> Vec<u64> {
    let (kind, numbers, places) = match *query {
        Query::Range([a, b, c, d]) => (0, [a, b, c, d], index.range(a, b, c, d)),
        Query::Within([x, y, radius]) => (1, [x, y, radius, 0.0], index.within(x, y, radius)),
    };
    let mut words = vec![kind];
    words.extend(numbers.map(f64::to_bits));
    words.push(places.len() as u64);
    words.extend(places.iter().map(|place| *place as u64));
    words
}

/// A query of a kind: 12 in a row are one of each, and any four of a case are of both functions.
fn query(points: &[[f64; 2]], kind: usize, source: &mut Splitmix) -> Query {
    let [[x, y], [u, v]] = [source.pick(points), source.pick(points)];
    match kind % 12 {
        // Edges and radii exactly on a coordinate.
        0 => Query::Range([x.min(u), y.min(v), x.max(u), y.max(v)]),
        1 => Query::Within([x, y, source.pick(&[u - x, v - y]).abs()]),
        2 => Query::Range([x, y, x, y]),
        3 => Query::Within([x, y, 0.0]),
        // Anywhere.
        4 => Query::Range([0.5 * source.unit(), 0.5 * source.unit(), 0.9, 0.9]),
        5 => Query::Within([source.unit(), source.unit(), 0.3 * source.unit()]),
        // Nothing.
        6 => Query::Range([x.next_up(), 2.0, x.next_down(), -1.0]),
        7 => Query::Within([3.0, -2.0, 0.5]),
        // One step of the format beside a coordinate.
        8 => Query::Range([x.next_up(), y.min(v), 1.0, y.max(v).next_down()]),
        9 => Query::Within([x.next_up(), y, f64::MIN_POSITIVE]),
        // Everything.
        10 => Query::Range([0.0, 0.0, 1.0, 1.0]),
        _ => Query::Within([0.5, 0.5, 2.0]),
    }
}
