//! What a build refuses: every refusal alone and before every other, with columns that must keep their
//! contents; and the cases beside them that are not refused, built as the Rust does.

use super::{outcome::Request, room};
use crate::{
    package::{needed, Lengths, COLUMNS},
    report::Group,
};
use columns::Given;
use options::{Options, Plane, Range, MOST_ENERGY, MOST_POINTS, UNIT, USUAL};
use points::odd::{ABOVE_1, INF, NAN, TINY};
use reachvolem::lent::Reply;
use refusals::{refusal, Refusal};

/// What a build is asked for, y in [0,1] on the globe too.
pub struct Asked {
    pub options: Options,
    pub points: Points,
    pub lengths: Lengths,
}

/// The points of such a build.
#[derive(Clone)]
pub struct Points {
    xs: Vec<f64>,
    ys: Vec<f64>,
    energies: Vec<u64>,
}

impl Points {
    fn given(&self) -> Given<'_> {
        Given { xs: &self.xs, ys: &self.ys, energies: &self.energies }
    }
}

/// Coordinates changed at once: axis, place, and what stands there.
type Changes = &'static [(usize, usize, f64)];

/// Energies changed at once: place, and what stands there.
type Energies = &'static [(usize, u64)];

/// One build, refused by the reference or built as the patched Rust does.
pub fn judge(asked: &Asked, group: &mut Group) {
    let Asked { options, points, lengths } = asked;
    let given = points.given();
    let outcome = Request { options, given, lengths: *lengths }.made();
    let difference = match refusal(options, &given, room(lengths)) {
        Some(Refusal { number, carried }) => outcome.is_not_refused(Reply { number, carried }),
        None => outcome.is_not(&rust_tables(options, &given)),
    };
    let about = || {
        let Given { xs, ys, energies } = given;
        let counts = [xs.len(), ys.len(), energies.len()];
        format!("{counts:?} given, columns of {lengths:?}, {options:?}")
    };
    group.compare(about, difference);
}

/// The patched Rust's tables. On the globe it would ask for latitudes: it is given the converted points.
fn rust_tables(options: &Options, given: &Given) -> rust_builds::Tables {
    match options.plane {
        Plane::Cartesian(_) => rust_builds::patched::tables(options, given),
        Plane::Globe => {
            let xs: Vec<f64> = given.xs.iter().map(|x| x / 360.0 + 0.5).collect();
            let options = Options { plane: Plane::Cartesian(UNIT), ..*options };
            rust_builds::patched::tables(&options, &Given { xs: &xs, ..*given })
        }
    }
}

/// Points spread over the unit square; some are close to each other. Their energies go up to the largest.
pub fn spread(count: usize) -> Points {
    let column = |step: f64| (0..count).map(|i| ((i / 2) as f64 * step).fract()).collect();
    let energies = (0..count as u64).map(|i| MOST_ENERGY - 3 * i).collect();
    Points { xs: column(0.6180339887498949), ys: column(0.7548776662466927), energies }
}

/// Lengths with room for a build of so many points, and some more.
pub fn roomy(options: &Options, count: usize) -> Lengths {
    needed(options, count).map(|length| length + 3)
}

/// 1, 2, 3, 15 and 4 in every combination.
pub fn run() -> Group {
    let mut group = Group::new("tables, refusals, alone and together");
    for options in some_options() {
        // Where the options are refused, with energies that are right and with one that is not.
        let energies = if options.in_bounds() { &ENERGIES[..] } else { &ENERGIES[..2] };
        for counts in COUNTS {
            for changes in CHANGES {
                for energies in energies {
                    let points = changed(counts, changes, energies);
                    for lengths in some_lengths(&options, counts[0]) {
                        let points = points.clone();
                        judge(&Asked { options, points, lengths }, &mut group);
                    }
                }
            }
        }
    }
    too_many(&mut group);
    group
}

/// How many xs, ys and energies there are.
const COUNTS: [[usize; 3]; 12] = [
    [5, 5, 5],
    [1, 1, 1],
    [0, 0, 0],
    [5, 4, 5],
    [4, 5, 5],
    [5, 0, 5],
    [0, 5, 5],
    [5, 5, 4],
    [5, 5, 6],
    [5, 5, 0],
    [0, 0, 5],
    [4, 4, 5],
];

/// None; one too large, first, last and between, by one and by far; several, of which the first counts.
const ENERGIES: [Energies; 6] = [
    &[],
    &[(0, MOST_ENERGY + 1)],
    &[(4, u64::MAX)],
    &[(2, MOST_ENERGY + 1), (3, 1 << 63), (1, MOST_ENERGY)],
    &[(3, 2 * MOST_ENERGY)],
    &[(0, 0), (1, MOST_ENERGY), (4, MOST_ENERGY)],
];

/// Options out of bounds each in another way, and some in bounds.
fn some_options() -> Vec<Options> {
    let usual = Options { max_zoom: 2, ..USUAL };
    let cartesian = |range| Options { plane: Plane::Cartesian(range), ..usual };
    vec![
        usual,
        Options { plane: Plane::Globe, ..usual },
        Options { min_zoom: 30, max_zoom: 30, node_size: 1, ..usual },
        Options { min_zoom: 3, ..usual },
        Options { max_zoom: 31, ..usual },
        Options { node_size: 0, ..usual },
        Options { node_size: 65_536, ..usual },
        Options { radius: -1.0, ..usual },
        Options { radius: NAN, ..usual },
        Options { extent: 0.5, ..usual },
        Options { extent: INF, ..usual },
        cartesian(Range { min_x: INF, ..UNIT }),
        cartesian(Range { max_y: NAN, ..UNIT }),
        cartesian(Range { offset: Some(-INF), ..UNIT }),
        cartesian(Range { scale: Some(0.0), ..UNIT }),
        cartesian(Range { scale: Some(-1.0), ..UNIT }),
        cartesian(Range { max_x: 0.0, max_y: 0.0, scale: None, ..UNIT }),
    ]
}

/// None; one outside [0,1] on either axis, first, last and between; several, of which the first counts.
const CHANGES: [Changes; 12] = [
    &[],
    &[(0, 0, NAN)],
    &[(1, 0, NAN)],
    &[(0, 4, 1e9)],
    &[(1, 4, ABOVE_1)],
    &[(0, 2, -1e9)],
    &[(1, 2, -TINY)],
    &[(0, 3, INF)],
    &[(1, 3, -INF)],
    &[(0, 3, NAN), (1, 1, 2.0)],
    &[(0, 1, -INF), (1, 3, NAN)],
    &[(0, 4, NAN), (1, 4, NAN), (0, 2, INF)],
];

/// Spread points, so many of each column, with the changes that fall into them.
fn changed(counts: [usize; 3], changes: Changes, energies: Energies) -> Points {
    let mut points = spread(counts.into_iter().max().unwrap_or(0));
    points.xs.truncate(counts[0]);
    points.ys.truncate(counts[1]);
    points.energies.truncate(counts[2]);
    for (axis, place, value) in changes {
        let column = if *axis == 0 { &mut points.xs } else { &mut points.ys };
        put(column, *place, *value);
    }
    energies.iter().for_each(|(place, value)| put(&mut points.energies, *place, *value));
    points
}

/// Puts a value where a column reaches.
fn put<T>(column: &mut [T], place: usize, value: T) {
    if let Some(old) = column.get_mut(place) {
        *old = value;
    }
}

/// Lengths: with room, just enough, nothing at all; each column one too short, and none of it.
fn some_lengths(options: &Options, count: usize) -> Vec<Lengths> {
    let enough = needed(options, count);
    let mut all = vec![roomy(options, count), enough, [0; COLUMNS.len()]];
    for column in 0..COLUMNS.len() {
        for length in [enough[column].saturating_sub(1), 0] {
            let mut lengths = enough;
            lengths[column] = length;
            all.push(lengths);
        }
    }
    all
}

/// The places of the neighbours and of the owners among the columns.
const NEAR: usize = COLUMNS.len() - 2;
const OWNERS: usize = COLUMNS.len() - 1;

/// One point more than a build can have, and the last one outside or of too large an energy; as many as it can have,
/// in columns that are too short.
fn too_many(group: &mut Group) {
    for count in [MOST_POINTS, MOST_POINTS + 1] {
        for (last, energy) in [(0.5, 1), (NAN, 1), (0.5, u64::MAX), (NAN, u64::MAX)] {
            for node_size in [0, 64] {
                let (mut xs, ys) = (vec![0.5; count], vec![0.25; count]);
                let mut energies = vec![MOST_ENERGY; count];
                (xs[count - 1], energies[count - 1]) = (last, energy);
                let options = Options { node_size, ..USUAL };
                let points = Points { xs, ys, energies };
                judge(&Asked { options, points, lengths: [0; COLUMNS.len()] }, group);
            }
        }
    }
}

/// Each column one too short, for several numbers of points and of tables.
pub fn of_short_columns() -> Group {
    let mut group = Group::new("tables, refusals of short columns");
    for [min_zoom, max_zoom] in [[0, 0], [0, 1], [0, 16], [16, 16], [0, 30], [30, 30]] {
        for plane in [USUAL.plane, Plane::Globe] {
            let options = Options { min_zoom, max_zoom, plane, ..USUAL };
            for count in [1, 2, 3, 40] {
                let points = spread(count);
                let mut all = some_lengths(&options, count);
                // As many neighbours as points, and no more: that is too short.
                let mut few_neighbours = needed(&options, count);
                few_neighbours[NEAR] = count;
                all.push(few_neighbours);
                for lengths in all {
                    let points = points.clone();
                    judge(&Asked { options, points, lengths }, &mut group);
                }
            }
        }
    }
    group
}

/// A column of the owners that is too short, just long enough or longer, where the others are just long enough or one of them
/// is too short: beside 1, 2, 3 and 15 in every combination, and for several numbers of tables.
pub fn by_the_owners() -> Group {
    let mut group = Group::new("tables, refusals by the owner column");
    for options in some_options() {
        for counts in COUNTS {
            for changes in CHANGES {
                for energies in &ENERGIES[..3] {
                    let points = changed(counts, changes, energies);
                    for lengths in owner_lengths(&options, counts[0]) {
                        let points = points.clone();
                        judge(&Asked { options, points, lengths }, &mut group);
                    }
                }
            }
        }
    }
    for [min_zoom, max_zoom] in [[0, 0], [0, 30], [7, 16], [29, 30], [30, 30]] {
        let options = Options { min_zoom, max_zoom, ..USUAL };
        for count in [1, 2, 17, 300] {
            for lengths in owner_lengths(&options, count) {
                judge(&Asked { options, points: spread(count), lengths }, &mut group);
            }
        }
    }
    group
}

/// Lengths of the column of the owners: none, one, one lamp's and one table's too few, just enough, more. The others are just long
/// enough; in the last ones the neighbours are one short.
fn owner_lengths(options: &Options, count: usize) -> Vec<Lengths> {
    let enough = needed(options, count);
    let with = |owners: usize| {
        let mut lengths = enough;
        lengths[OWNERS] = owners;
        lengths
    };
    let needed = enough[OWNERS];
    let few = [0, 1, needed.saturating_sub(count), needed.saturating_sub(1)];
    let mut all: Vec<Lengths> =
        few.into_iter().chain([needed, needed + 1, needed + 9]).map(with).collect();
    for mut lengths in [with(needed.saturating_sub(1)), with(needed + 1)] {
        lengths[NEAR] = lengths[NEAR].saturating_sub(1);
        all.push(lengths);
    }
    all
}
