//! Test vectors for the build of the tables, made by calling the patched Rust: one case a line, in words as those of
//! the index. (The line is broken here to be read.)
//!
//!     min_zoom max_zoom min_points radius extent node_size
//!     cartesian min_x min_y max_x max_y offset_given offset scale_given scale
//!     longitude_strips_only
//!     n   x y ..   energy ..   m   x y seen id parent num energy slot_id slot_x slot_y ..   start len ..
//!
//! `cartesian`, `offset_given`, `scale_given` and `longitude_strips_only` are 1 or 0; what is not given is 0. For
//! longitude x is in degrees and y in [0,1]. The m entries are those of all tables, packed, the finest first, each
//! with the slot at its position; start and length are of each table from min_zoom to max_zoom + 1. There are 77
//! cases, of 1 to 60 points and at most 95 entries, all accepted. For longitude the Rust is asked for its x of each
//! point on the equator, then for the tables of these and y: its y of a latitude comes by functions that differ from
//! machine to machine in their last bits.

use crate::plain::{
    columns, points as in_parts, Options, Plane, Range, ENERGIES, LAMPS, REACHED, REACHING, UNIT,
    WORKED,
};
use columns::{Given, Lent};
use options::{corners, MOST_ENERGY};
use points::{Drawn, SHAPES};
use rust_builds::{patched, Tables};
use splitmix::Splitmix;
use std::io::{self, Write};

const SEED: u64 = 1;

/// Options of the small cases, in turn: their numbers meet in many ways.
const MIN_POINTS: [u8; 7] = [2, 3, 2, 0, 2, 255, 1];
#[rustfmt::skip]
const REACHES: [[f64; 2]; 9] = [
    [40.0, 512.0], [128.0, 512.0], [61.7, 256.0], [0.0, 1.0], [200.0, 512.0], [512.0, 1_000.0],
    [65_536.0, 65_536.0], [150.0, 256.0], [65_536.0, 1.0],
];
const NODE_SIZES: [usize; 6] = [1, 2, 64, 3, 8, 65_535];
const DRAWN: [Drawn; 5] = [Drawn::Not, Drawn::By(1), Drawn::Not, Drawn::By(2), Drawn::By(3)];

/// The zooms of the small cases: each number of points is built with all of these.
const ZOOMS: [[u8; 2]; 4] = [[0, 1], [0, 3], [2, 3], [0, 0]];
const SMALL: usize = 15;

/// Larger cases, of few tables, and cases of many tables, whose points meet at many zooms: number of points,
/// min_zoom and max_zoom.
const LARGER: [(usize, [u8; 2]); 5] =
    [(24, [0, 0]), (30, [1, 2]), (36, [0, 1]), (48, [0, 0]), (60, [2, 2])];
const DEEP: [(usize, [u8; 2]); 7] = [
    (2, [0, 30]),
    (3, [0, 16]),
    (3, [16, 30]),
    (4, [0, 9]),
    (5, [0, 16]),
    (5, [5, 24]),
    (6, [0, 30]),
];

/// Writes the cases: SCOPE's worked build, small ones, larger ones, deep ones, the lamps of its corner, and the worked
/// build with energies at their bounds.
pub fn write(out: &mut impl Write) -> io::Result<()> {
    let mut source = Splitmix(SEED);
    out.write_all(line(&WORKED, &columns(&in_parts(&LAMPS)), &ENERGIES).as_bytes())?;
    let small = (1..=SMALL).flat_map(|count| ZOOMS.map(|zooms| (count, zooms)));
    for (number, (count, zooms)) in small.enumerate() {
        let options = options(number, zooms, &mut source);
        let drawn = DRAWN[number % DRAWN.len()];
        out.write_all(case(number, &options, count, drawn, &mut source).as_bytes())?;
    }
    let larger = LARGER.map(|case| (case, Drawn::Not));
    let deep = DEEP.map(|case| (case, Drawn::Each));
    for (number, ((count, [min_zoom, max_zoom]), drawn)) in
        larger.into_iter().chain(deep).enumerate()
    {
        let ordinary = corners::ordinary(&mut source);
        let options = Options { min_zoom, max_zoom, min_points: 2, ..ordinary };
        out.write_all(case(number, &options, count, drawn, &mut source).as_bytes())?;
    }
    let reached = columns(&REACHED);
    out.write_all(line(&REACHING, &reached, &energies_of(&reached)).as_bytes())?;
    for energies in at_the_bound() {
        out.write_all(line(&WORKED, &columns(&in_parts(&LAMPS)), &energies).as_bytes())?;
    }
    out.flush()
}

/// The options that are due.
fn options(number: usize, [min_zoom, max_zoom]: [u8; 2], source: &mut Splitmix) -> Options {
    let [radius, extent] = REACHES[number % REACHES.len()];
    Options {
        min_zoom,
        max_zoom,
        min_points: MIN_POINTS[number % MIN_POINTS.len()],
        radius,
        extent,
        node_size: NODE_SIZES[number / 2 % NODE_SIZES.len()],
        plane: corners::plane(number, source),
        longitude_strips_only: number / corners::PLANES % 2 == 1,
    }
}

/// The line of so many points of the shape that is due.
fn case(
    number: usize,
    options: &Options,
    count: usize,
    drawn: Drawn,
    source: &mut Splitmix,
) -> String {
    // The shapes move on against the coordinate systems.
    let shape = SHAPES[(number + number / SHAPES.len()) % SHAPES.len()];
    let points = points::made(shape, count, source).drawn(drawn, source);
    let [xs, ys] = points.placed(&options.plane);
    let points = match options.plane {
        Plane::Cartesian(_) => [xs, ys],
        Plane::Globe => [xs, points.ys],
    };
    line(options, &points, &energies_of(&points))
}

/// Energies of points.
pub fn energies_of([xs, ys]: &[Vec<f64>; 2]) -> Vec<u64> {
    points::energies(xs, ys)
}

/// Energies of the worked build: none, the most, and one of the most.
fn at_the_bound() -> [[u64; 4]; 3] {
    [[0; 4], [MOST_ENERGY; 4], [0, 0, MOST_ENERGY, 1]]
}

/// The Rust's tables of points as the port takes them. The Rust would ask for latitudes on the globe, and makes
/// y of them by functions that are not the same to the bit everywhere: it is asked for its x of each longitude
/// on the equator, then for the tables of these and y.
pub fn tables(options: &Options, given: &Given) -> Tables {
    let Given { xs, energies, .. } = *given;
    match options.plane {
        Plane::Cartesian(_) => patched::tables(options, given),
        Plane::Globe => {
            let ys = &vec![0.0; xs.len()];
            let on_equator = patched::tables(options, &Given { xs, ys, energies });
            let options = Options { plane: Plane::Cartesian(UNIT), ..*options };
            patched::tables(&options, &Given { xs: &on_equator.columns.x[..xs.len()], ..*given })
        }
    }
}

/// The words of a case and a line feed.
fn line(options: &Options, [xs, ys]: &[Vec<f64>; 2], energies: &[u64]) -> String {
    let tables = tables(options, &Given { xs, ys, energies });
    let mut words = option_words(options);
    words.push(xs.len() as u64);
    words.extend(xs.iter().zip(ys).flat_map(|(x, y)| [x.to_bits(), y.to_bits()]));
    words.extend(energies);
    let lent = tables.columns.lent();
    words.push(lent.x.len() as u64);
    words.extend((0..lent.x.len()).flat_map(|at| entry_words(&lent, at)));
    for zoom in usize::from(options.min_zoom)..=usize::from(options.max_zoom) + 1 {
        words.extend([tables.starts[zoom], tables.lens[zoom]].map(u64::from));
    }
    words.iter().map(|word| format!("{word:016x}")).collect::<Vec<_>>().join(" ") + "\n"
}

/// The options: zeros stand for what is not given or not part of the coordinate system.
pub fn option_words(options: &Options) -> Vec<u64> {
    const NONE: Range =
        Range { min_x: 0.0, min_y: 0.0, max_x: 0.0, max_y: 0.0, offset: None, scale: None };
    let (cartesian, range) = match options.plane {
        Plane::Globe => (false, NONE),
        Plane::Cartesian(range) => (true, range),
    };
    let mut words =
        [options.min_zoom, options.max_zoom, options.min_points].map(u64::from).to_vec();
    words.extend([options.radius, options.extent].map(f64::to_bits));
    words.extend([options.node_size as u64, u64::from(cartesian)]);
    words.extend([range.min_x, range.min_y, range.max_x, range.max_y].map(f64::to_bits));
    for number in [range.offset, range.scale] {
        words.extend([u64::from(number.is_some()), number.unwrap_or(0.0).to_bits()]);
    }
    words.push(u64::from(options.longitude_strips_only));
    words
}

/// The entry at a position and the slot of its index there.
fn entry_words(lent: &Lent, at: usize) -> Vec<u64> {
    let slot = lent.slot(at);
    let [x, y] = slot.at.map(f64::to_bits);
    let mut words = lent.entry(at).words();
    words.extend([u64::from(slot.place), x, y]);
    words
}
