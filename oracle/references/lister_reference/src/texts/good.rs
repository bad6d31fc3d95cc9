//! Texts of the form, by chance: tables of every shape, and every refusal of a build, alone and before others.

use super::Draft;
use crate::lines::LENT;
use options::corners::{MIN_POINTS, NODE_SIZES, ZOOMS};
use points::{Drawn, SHAPES};
use splitmix::Splitmix;

/// Usual zooms, of which some lie where points that differ by one part meet.
const USUAL_ZOOMS: [[u64; 2]; 8] =
    [[0, 1], [0, 3], [0, 5], [0, 16], [0, 30], [3, 9], [7, 24], [2, 2]];

/// Radii and extents, from the least to the greatest.
const RADII: [u64; 8] = [0, 1, 40, 61, 512, 8_192, 65_535, 65_536];
const EXTENTS: [u64; 6] = [1, 3, 256, 512, 4_096, 65_536];

const DRAWN: [Drawn; 5] = [Drawn::Not, Drawn::By(2), Drawn::By(5), Drawn::By(11), Drawn::Each];

/// Options out of a build's bounds: which, and the value.
const PAST: [(usize, u64); 14] = [
    (0, 31),
    (0, 255),
    (1, 31),
    (1, 32),
    (1, 255),
    (3, 65_537),
    (3, 9_999_999),
    (4, 0),
    (4, 65_537),
    (4, 9_999_999),
    (5, 0),
    (5, 65_536),
    (5, 131_073),
    (5, 9_999_999),
];

/// Coordinates past the unit.
const OUTSIDE: [u64; 5] = [65_537, 65_538, 131_072, 1_000_000, 9_999_999];

/// Numbers on either side of every bound, for texts of chance.
const ANY_SMALL: [u64; 10] = [0, 0, 1, 2, 3, 16, 30, 31, 254, 255];
const ANY: [u64; 10] = [0, 1, 2, 64, 512, 65_535, 65_536, 65_537, 1_000_000, 9_999_999];

/// The largest energy that a text can state, and how many kinds of them there are.
const MOST_ENERGY: u64 = 9_999_999;
const KINDS_OF_ENERGIES: u64 = 5;

/// How many kinds there are.
pub const KINDS: usize = 12;

/// A text of the kind that is due.
pub fn good(number: usize, source: &mut Splitmix) -> Draft {
    match number % KINDS {
        0..=2 => fitting(usual(source), 12, source),
        3 => fitting(usual(source), 90, source),
        4 | 5 => fitting(corner(source), 30, source),
        6 => room(source),
        7 => past(source),
        8 => Draft::new(one_of([usual, corner, past_options], source), Vec::new()),
        9 => outside(source),
        10 => any(source),
        _ => crowded(source),
    }
}

/// So many points of a shape by chance, drawn together or not, in 65,536ths, each with an energy.
pub fn spread(count: usize, source: &mut Splitmix) -> Vec<[u64; 3]> {
    if count == 0 {
        return Vec::new();
    }
    let (shape, drawn) = (source.pick(&SHAPES), source.pick(&DRAWN));
    let made = points::made(shape, count, source).drawn(drawn, source);
    let parts = |v: f64| (v * 65_536.0).round() as u64;
    let kind = source.below(KINDS_OF_ENERGIES);
    let points = made.xs.iter().zip(&made.ys);
    points.map(|(x, y)| [parts(*x), parts(*y), energy(kind, source)]).collect()
}

/// An energy of a kind: none, the most, a few, any.
fn energy(kind: u64, source: &mut Splitmix) -> u64 {
    match kind {
        0 => 0,
        1 => MOST_ENERGY,
        2 => source.pick(&[0, 1, 9, 10, 99, 1_000_000, MOST_ENERGY]),
        _ => source.below(MOST_ENERGY + 1),
    }
}

/// Options as users have them.
fn usual(source: &mut Splitmix) -> [u64; 6] {
    let [min_zoom, max_zoom] = source.pick(&USUAL_ZOOMS);
    let min_points = source.pick(&[2, 2, 2, 3, 4, 7]);
    let (radius, extent) = (10 + source.below(300), source.pick(&[256, 512, 1_000]));
    [min_zoom, max_zoom, min_points, radius, extent, source.pick(&[1, 2, 3, 8, 64])]
}

/// Options at SCOPE's bounds and between.
fn corner(source: &mut Splitmix) -> [u64; 6] {
    let [min_zoom, max_zoom] = source.pick(&ZOOMS).map(u64::from);
    let (min_points, node_size) = (source.pick(&MIN_POINTS), source.pick(&NODE_SIZES));
    let (radius, extent) = (source.pick(&RADII), source.pick(&EXTENTS));
    [min_zoom, max_zoom, u64::from(min_points), radius, extent, node_size as u64]
}

/// Options of which one or two are out of bounds.
fn past_options(source: &mut Splitmix) -> [u64; 6] {
    let mut options = usual(source);
    for _ in 0..=source.below(2) {
        let (key, value) = source.pick(&PAST);
        options[key] = value;
    }
    if source.below(8) == 0 {
        // The zooms the wrong way round, both in bounds.
        (options[0], options[1]) = (1 + source.below(30), 0);
    }
    options
}

/// Options by one of these ways.
fn one_of<const WAYS: usize>(
    ways: [fn(&mut Splitmix) -> [u64; 6]; WAYS],
    source: &mut Splitmix,
) -> [u64; 6] {
    source.pick(&ways)(source)
}

/// The most points that the columns have room for.
fn most(options: &[u64; 6]) -> u64 {
    LENT as u64 / (options[1].saturating_sub(options[0]) + 2)
}

/// From one point to so many, or to as many as there is room for.
fn fitting(options: [u64; 6], points: u64, source: &mut Splitmix) -> Draft {
    let count = 1 + source.below(points.min(most(&options)));
    Draft::new(options, spread(count as usize, source))
}

/// As many points as there is room for, or one more.
fn room(source: &mut Splitmix) -> Draft {
    let mut options = one_of([usual, corner], source);
    let tables = 2 + source.below(31);
    options[0] = source.below(33 - tables);
    options[1] = options[0] + tables - 2;
    let count = most(&options) + source.below(2);
    Draft::new(options, spread(count as usize, source))
}

/// Options out of bounds, and other faults or none.
fn past(source: &mut Splitmix) -> Draft {
    let options = past_options(source);
    let mut draft = fitting(options, 6, source);
    if source.below(3) == 0 {
        put_outside(&mut draft, source);
    }
    if source.below(8) == 0 {
        draft = Draft::new(options, spread(577, source));
    }
    draft
}

/// One to three coordinates past the unit, with room and without.
fn outside(source: &mut Splitmix) -> Draft {
    let options = one_of([usual, corner], source);
    let mut draft = match source.below(4) {
        0 => Draft::new(options, spread(most(&options) as usize + 1, source)),
        _ => fitting(options, 20, source),
    };
    put_outside(&mut draft, source);
    draft
}

fn put_outside(draft: &mut Draft, source: &mut Splitmix) {
    for _ in 0..=source.below(3) {
        let (point, axis) = (source.below(draft.count), source.below(2));
        draft.points[point as usize][axis as usize] = source.pick(&OUTSIDE);
    }
}

/// Each number by itself from either side of every bound.
fn any(source: &mut Splitmix) -> Draft {
    let small = |source: &mut Splitmix| source.pick(&ANY_SMALL);
    let options = [
        small(source),
        small(source),
        small(source),
        source.pick(&ANY),
        source.pick(&ANY),
        source.pick(&ANY),
    ];
    let inside = source.below(2) == 0;
    let point = |source: &mut Splitmix| match inside {
        true => [source.below(65_537), source.below(65_537), source.pick(&ANY)],
        false => [source.pick(&ANY), source.pick(&ANY), source.pick(&ANY)],
    };
    let points = (0..source.below(7)).map(|_| point(source)).collect();
    Draft::new(options, points)
}

/// More points than any two tables have room for, up to the most that a text can state.
fn crowded(source: &mut Splitmix) -> Draft {
    let options = one_of([usual, usual, past_options], source);
    let between = 577 + source.below(576);
    let count = source.pick(&[577, 1_151, 1_152, between]);
    let mut draft = Draft::new(options, spread(count as usize, source));
    if source.below(4) == 0 {
        put_outside(&mut draft, source);
    }
    draft
}
