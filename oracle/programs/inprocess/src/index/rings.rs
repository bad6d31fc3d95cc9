//! Rings whose edges, as they are rounded, lie on coordinates of an index or a few steps of the format beside them.
//! The index has few points, most of them there, and is built with several node sizes. The members are those that a
//! plain scan finds, whatever the node size; the order is the patched Rust's.

use super::{
    arrangement::Request,
    queries::Query,
    reference::{self, plain, told},
    rust, searches,
    untouched::BesideUntouched,
};
use crate::{
    report::{other_column, Group},
    Form,
};
use points::steps_beside as beside;
use reachvolem::lent::Index as Lent;
use splitmix::Splitmix;

const NODE_SIZES: [usize; 5] = [1, 2, 3, 8, 64];

/// The most points of an index, and how many rings each is asked.
const MOST: u64 = 30;
const RINGS: usize = 20;

/// Indexes of a few points, and rings around each: a million in all, with the long form ten million.
pub fn run(form: Form, built: &mut Group, judged: &mut Group) -> [Group; 2] {
    let mut source = Splitmix(3);
    let mut group = Group::new("index, rings at rounded edges beside a scan");
    let mut untouched = BesideUntouched::new("index, the same beside the untouched Rust");
    for round in 0..form.of([10_000, 100_000]) {
        let first = circle(&mut source);
        let count = 1 + source.below(MOST) as usize;
        let points: Vec<[f64; 2]> = (0..count).map(|_| point(first, &mut source)).collect();
        let [xs, ys] = [0, 1].map(|axis| points.iter().map(|point| point[axis]).collect());
        let scene = Scene { round, xs, ys };
        let mut circles = vec![first];
        circles.extend((1..RINGS).map(|_| aimed(first, source.pick(&points), &mut source)));
        for node_size in NODE_SIZES {
            scene.compare(node_size, &circles, built, judged, &mut untouched, &mut group);
        }
    }
    [group, untouched.told()]
}

/// The points of an index.
struct Scene {
    round: usize,
    xs: Vec<f64>,
    ys: Vec<f64>,
}

impl Scene {
    /// The index with a node size, and the rings in it.
    fn compare(
        &self,
        node_size: usize,
        circles: &[[f64; 3]],
        built: &mut Group,
        judged: &mut Group,
        untouched: &mut BesideUntouched,
        group: &mut Group,
    ) {
        let Scene { round, xs, ys } = self;
        let count = xs.len();
        let columns = rust::patched(node_size, xs, ys);
        let about = || format!("index {round}, node_size {node_size}, {count} points");
        let request = Request { node_size, xs, ys, ids_length: count, coords_length: 2 * count };
        built.compare(about, request.differs(plain(0), Some(&columns)));
        let lent = Lent { node_size, count, ids: &columns.ids, coords: &columns.coords };
        let (rust, bare) = (rust::Patched::over(&lent), rust::Untouched::over(&lent));
        for circle in circles {
            let query = Query::Within(*circle);
            let about = || format!("{}, {query:?}", about());
            let (slots, places) = (reference::slots(&lent, &query), rust.places(&query));
            judged.compare(about, searches::other_places(&lent, &slots, &places));
            untouched.compare(xs, ys, &query, &places, &bare, about);
            let expected = told(count, &places, &searches::old_column(count));
            let difference = searches::list_differs(&lent, &query, count, &expected)
                .or_else(|| searches::walk_differs(&lent, &query, &slots, &places))
                .or_else(|| self.other_members(*circle, &places));
            group.compare(about, difference);
        }
    }

    /// How these places differ from those that a plain scan of all points finds, if they do.
    fn other_members(&self, [qx, qy, radius]: [f64; 3], places: &[u32]) -> Option<String> {
        let passes = |place: &u32| {
            let [dx, dy] = [self.xs[*place as usize] - qx, self.ys[*place as usize] - qy];
            dx * dx + dy * dy <= radius * radius
        };
        let scanned: Vec<u32> = (0..self.xs.len() as u32).filter(passes).collect();
        let mut members = places.to_vec();
        members.sort_unstable();
        other_column("members", &scanned, &members)
    }
}

/// A ring with an edge within [0,1], on either axis and either side; the edge is often much closer to 0 than the
/// centre is, so that it is finer than the distance.
fn circle(source: &mut Splitmix) -> [f64; 3] {
    let edge = points::fine(source);
    let centre = match source.below(4) {
        0 => 1.0,
        1 => source.unit(),
        2 => 3.0 * source.unit() - 1.0,
        _ => source.pick(&[0.0, 0.25, 0.5, 0.75, -1.0, 2.0]),
    };
    let radius = source.pick(&[(centre - edge).abs(), 0.75, 0.5]);
    let other = source.unit();
    match source.below(2) {
        0 => [centre, other, radius],
        _ => [other, centre, radius],
    }
}

/// A point at an edge of a ring or a few steps beside it, on either axis; in four of five cases the ring's centre lies
/// there too on the other axis, so that nothing but the edge decides.
fn point([qx, qy, radius]: [f64; 3], source: &mut Splitmix) -> [f64; 2] {
    let edge = |q: f64, source: &mut Splitmix| {
        let edge = source.pick(&[q - radius, q + radius]);
        beside(edge, source).clamp(0.0, 1.0)
    };
    let other = |q: f64, source: &mut Splitmix| match source.below(5) {
        0 => source.unit(),
        _ => q.clamp(0.0, 1.0),
    };
    match source.below(9) {
        0 => [source.unit(), source.unit()],
        1..=4 => [edge(qx, source), other(qy, source)],
        _ => [other(qx, source), edge(qy, source)],
    }
}

/// A ring with an edge at this point or a few steps beside it: by another centre, or by another radius.
fn aimed([qx, qy, radius]: [f64; 3], [x, y]: [f64; 2], source: &mut Splitmix) -> [f64; 3] {
    match source.below(6) {
        0 => [beside(source.pick(&[x - radius, x + radius]), source), y, radius],
        1 => [x, beside(source.pick(&[y - radius, y + radius]), source), radius],
        2 => [qx, y, beside((qx - x).abs(), source).max(0.0)],
        3 => [x, qy, beside((qy - y).abs(), source).max(0.0)],
        4 => [qx, qy, beside(radius, source).max(0.0)],
        _ => {
            let (centre, other) = (2.0 * source.unit(), beside(y, source));
            [centre, other, beside((centre - x).abs(), source).max(0.0)]
        }
    }
}
