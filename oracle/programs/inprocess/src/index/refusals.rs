//! What the build and the searches refuse: every refusal alone and before every other, with columns
//! that must keep their contents; and the cases beside them that are not refused.

use super::{
    arrangement::{Columns, Request},
    queries::Query,
    reference::{build_refusal, plain, search_refusal, searched},
    rust, searches,
};
use crate::report::Group;
use options::MOST_POINTS;
use points::odd::{ABOVE_1, INF, MAX, NAN, NOT_FINITE, TINY};
use reachvolem::lent::Index as Lent;

/// Node sizes in bounds and out of them.
const NODE_SIZES: [usize; 7] = [0, 1, 3, 64, 65_535, 65_536, usize::MAX];

/// Numbers of xs and of ys.
const LENGTHS: [[usize; 2]; 8] = [[0, 0], [0, 3], [3, 0], [1, 1], [7, 7], [7, 6], [6, 7], [40, 40]];

/// Coordinates outside [0,1], and some on its edges.
const COORDINATES: [f64; 11] = [NAN, INF, -INF, -TINY, ABOVE_1, -1.0, 2.0, -0.0, 0.0, TINY, 1.0];

/// Changed coordinates: the place from the front or from the back, the axis, the coordinate.
type Changes = Vec<(usize, bool, usize, f64)>;

/// Builds: 1, 2, 3, 4 in every combination.
pub fn of_builds() -> Group {
    let mut group = Group::new("index, refusals of a build");
    for lengths in LENGTHS {
        for changes in changes() {
            let [xs, ys] = changed_points(lengths, &changes);
            for node_size in NODE_SIZES {
                for [ids_length, coords_length] in column_lengths(xs.len()) {
                    let request =
                        Request { node_size, xs: &xs, ys: &ys, ids_length, coords_length };
                    one_build(&request, &mut group);
                }
            }
        }
    }
    too_many(&mut group);
    group
}

/// Lengths of the two columns: just enough, longer, one short, none.
fn column_lengths(count: usize) -> Vec<[usize; 2]> {
    let mut all = Vec::new();
    for ids in [count, count + 3, count.saturating_sub(1), 0] {
        for coords in [2 * count, 2 * count + 5, (2 * count).saturating_sub(1), count, 0] {
            all.push([ids, coords]);
        }
    }
    all
}

/// No change, one at either end on either axis, and two at once.
fn changes() -> Vec<Changes> {
    let mut all = vec![Vec::new()];
    for value in COORDINATES {
        for (from_back, place) in [(false, 0), (false, 2), (true, 0)] {
            all.push(vec![(place, from_back, 0, value)]);
            all.push(vec![(place, from_back, 1, value)]);
        }
    }
    all.push(vec![(1, true, 0, NAN), (1, false, 1, 2.0)]);
    all.push(vec![(1, false, 0, -1.0), (1, true, 1, INF)]);
    all.push(vec![(0, true, 0, NAN), (0, true, 1, NAN)]);
    all
}

/// Points spread over the unit square, with the changes that fall into them.
fn changed_points(lengths: [usize; 2], changes: &Changes) -> [Vec<f64>; 2] {
    let steps = [0.6180339887498949, 0.7548776662466927];
    let mut columns = [0, 1].map(|axis: usize| {
        (0..lengths[axis]).map(|i| (i as f64 * steps[axis]).fract()).collect::<Vec<_>>()
    });
    for (place, from_back, axis, value) in changes {
        let column = &mut columns[*axis];
        let at = match from_back {
            true => column.len().checked_sub(1 + place),
            false => Some(*place),
        };
        if let Some(coordinate) = at.and_then(|at| column.get_mut(at)) {
            *coordinate = *value;
        }
    }
    columns
}

/// One build, refused by the reference or arranged as the Rust does.
fn one_build(request: &Request, group: &mut Group) {
    let Request { node_size, xs, ys, ids_length, coords_length } = *request;
    let about = || {
        format!(
            "node_size {node_size}, {} xs, {} ys, columns of {ids_length} and {coords_length}",
            xs.len(),
            ys.len()
        )
    };
    let difference = match build_refusal(node_size, xs, ys, ids_length, coords_length) {
        Some(refusal) => request.differs(refusal, None),
        None => request.differs(plain(0), Some(&rust::patched(node_size, xs, ys))),
    };
    group.compare(about, difference);
}

/// One point more than an index can have, and the last one outside; as many as it can have, in columns
/// that are too short.
fn too_many(group: &mut Group) {
    let mut xs = vec![0.5; MOST_POINTS + 1];
    let ys = vec![0.25; MOST_POINTS + 1];
    for last in [0.5, NAN] {
        xs[MOST_POINTS] = last;
        for node_size in [0, 64] {
            for count in [MOST_POINTS, MOST_POINTS + 1] {
                let request = Request {
                    node_size,
                    xs: &xs[..count],
                    ys: &ys[..count],
                    ids_length: MOST_POINTS - 1,
                    coords_length: 2 * MOST_POINTS,
                };
                one_build(&request, group);
            }
        }
    }
}

/// Searches and cursors: 11 and 9 in every combination, beside questions that are answered.
pub fn of_searches() -> Group {
    let mut group = Group::new("index, refusals of a search");
    let [xs, ys] = changed_points([40, 40], &Vec::new());
    let Columns { ids, coords } = rust::patched(8, &xs, &ys);
    for node_size in NODE_SIZES {
        for count in [0, 1, 39, 40, 41, MOST_POINTS, MOST_POINTS + 1, 1 << 63, usize::MAX] {
            for ids_length in [0, 1, 39, 40] {
                for coords_length in [0, 1, 2, 79, 80] {
                    let (ids, coords) = (&ids[..ids_length], &coords[..coords_length]);
                    let lent = Lent { node_size, count, ids, coords };
                    queries().iter().for_each(|query| one_search(&lent, query, &mut group));
                }
            }
        }
    }
    group
}

/// Queries with each number not finite in turn, with radii around 0, and two that are answered.
fn queries() -> Vec<Query> {
    let (corners, circle) = ([0.25, 0.25, 0.75, 0.75], [0.5, 0.5, 0.25]);
    let mut all = vec![Query::Range(corners), Query::Within(circle)];
    for wrong in NOT_FINITE {
        for at in 0..4 {
            let mut corners = corners;
            corners[at] = wrong;
            all.push(Query::Range(corners));
        }
        for at in 0..3 {
            let mut circle = circle;
            circle[at] = wrong;
            all.push(Query::Within(circle));
        }
    }
    for radius in [0.0, -0.0, TINY, -TINY, -0.25, -MAX, MAX] {
        all.push(Query::Within([0.5, 0.5, radius]));
    }
    all
}

/// One question as a list, in a column with room and in one without, and by the cursor.
fn one_search(lent: &Lent, query: &Query, group: &mut Group) {
    let about = || {
        let Lent { node_size, count, ids, coords } = lent;
        let lengths = [ids.len(), coords.len()];
        format!("node_size {node_size}, {count} slots, columns of {lengths:?}, {query:?}")
    };
    for room in [50, 3, 0] {
        let expected = searched(lent, query, &searches::old_column(room));
        group.compare(about, searches::list_differs(lent, query, room, &expected));
    }
    let difference = match search_refusal(lent, query, false) {
        Some(number) => searches::cursor_refusal_differs(lent, query, number),
        None => searches::first_differs(lent, query),
    };
    group.compare(about, difference);
}
