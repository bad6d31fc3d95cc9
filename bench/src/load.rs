//! The build of the tables: how long it takes, and how much memory.

use crate::{
    clock::timed,
    memory::{self, Peak},
    points::{Points, Shape, SHAPES},
    port,
    rounds::{measured, median, Found, Side},
    table::{self, Times},
    Size,
};
use columns::Entry;
use geojson::{Feature, JsonObject, JsonValue};
use options::{Options, USUAL};
use rust_builds::Row;
use std::{cell::Cell, iter};

/// The sides whose memory is measured too; of the last one each feature carries its energy as a property.
const PORT: &str = "port";
const UNTOUCHED: &str = "untouched";
const FIGURES: &str = "untouched with energies";

/// The sides beside the port.
const TIMES: Times = Times(&[UNTOUCHED, "patched", FIGURES]);

/// How long a load of so many points took.
struct Took {
    count: usize,
    entries: usize,
    port: u64,
    untouched: u64,
}

/// All three tables; or what differed.
pub fn run(size: &Size) -> Result<(), String> {
    let Options { min_zoom, max_zoom, min_points, radius, extent, node_size, .. } = USUAL;
    println!();
    println!(
        "load: zooms {min_zoom} to {max_zoom}, radius {radius}, extent {extent}, node_size {node_size}, \
         min_points {min_points}"
    );
    println!();
    TIMES.head("entries");
    let mut took = Vec::new();
    for shape in SHAPES {
        let loads = iter::once(&size.small).chain(size.loads);
        let of_shape = loads.map(|[count, rounds]| times(shape, *count, *rounds));
        took.push((shape, of_shape.collect::<Result<Vec<Took>, String>>()?));
    }
    let [count, rounds] = size.crowded;
    times(Shape::Crowded, count, rounds)?;
    println!();
    growth(&took);
    println!();
    table::memory_head();
    for shape in SHAPES {
        size.loads.iter().try_for_each(|[count, _]| peaks(shape, *count))?;
    }
    Ok(())
}

/// How the time grows with the points: what one of them takes of a load, and one entry of the tables.
fn growth(took: &[(Shape, Vec<Took>)]) {
    let counts: Vec<usize> = took[0].1.iter().map(|took| took.count).collect();
    table::growth_head("a load, for each of its points", &counts);
    for (shape, took) in took {
        let row = |what: &str, share: &dyn Fn(&Took) -> f64| {
            table::growth_line(&format!("{}, {what}", shape.name()), took.iter().map(share));
        };
        row(PORT, &|took| took.port as f64 / took.count as f64);
        row(UNTOUCHED, &|took| took.untouched as f64 / took.count as f64);
        row("port, for each entry", &|took| took.port as f64 / took.entries as f64);
    }
}

/// Up to so many points the patched Rust is measured too, and features that carry their energy.
const PATCHED_UP_TO: usize = 100_000;

/// One line: so many points loaded by both sides, and by the others where there are not too many.
fn times(shape: Shape, count: usize, rounds: usize) -> Result<Took, String> {
    let what = named(shape, count);
    let points = shape.points(count);
    let entries = Cell::new(0);
    let mut sides = vec![
        Side::new(PORT, || port_load(&points, &entries)),
        Side::new(UNTOUCHED, || untouched_load(&points)),
    ];
    if count <= PATCHED_UP_TO {
        sides.push(Side::new("patched", || patched_load(&points)));
        sides.push(Side::new(FIGURES, || figures_load(&points)));
    }
    let measured = measured(rounds, &mut sides).map_err(|why| format!("{what}: {why}"))?;
    TIMES.line(&what, &entries.get().to_string(), 1, &measured.times);
    let [port, untouched] = [0, 1].map(|side| median(&measured.times[side]));
    Ok(Took { count, entries: entries.get(), port, untouched })
}

/// In words: `load, uniform, 10000`.
fn named(shape: Shape, count: usize) -> String {
    format!("load, {}, {count}", shape.name())
}

/// The port's build as a side of the measurement.
fn port_load(points: &Points, entries: &Cell<usize>) -> (Found, u64) {
    let (lamps, nanoseconds) = timed(|| port::loaded(points));
    let lent = port::columns(&lamps);
    let length = lent.room();
    entries.set(length);
    // The Rust knows of no energies: those of all tables have to be the points' once for each.
    let row = |at: usize| Row { entry: Entry { energy: 0, ..lent.entry(at) }, slot: lent.slot(at) };
    let sum = |energies: &[u64]| energies.iter().map(|energy| u128::from(*energy)).sum::<u128>();
    let tables = USUAL.tables() as u128;
    assert_eq!(sum(lent.energy), tables * sum(&points.energies), "energies");
    (found((0..length).map(row), points.xs.len(), true), nanoseconds)
}

/// The points as features; each with its energy as a property.
fn features_with_energies(points: &Points) -> Vec<Feature> {
    let mut features = features(points);
    for (feature, energy) in features.iter_mut().zip(&points.energies) {
        let mut properties = JsonObject::new();
        properties.insert("energy".to_string(), JsonValue::from(*energy as usize));
        feature.properties = Some(properties);
    }
    features
}

/// The points as features.
fn features(points: &Points) -> Vec<Feature> {
    rust_builds::features(&points.xs, &points.ys)
}

macro_rules! rust_load {
    ($side:ident, $module:ident, $features:ident, $in_order:literal) => {
        /// The Rust's build as a side of the measurement; the features are made before.
        fn $side(points: &Points) -> (Found, u64) {
            let features = $features(points);
            let (rust, nanoseconds) = timed(|| {
                let mut rust = rust_builds::$module::unloaded(&USUAL);
                rust.load(features).expect("points that are loaded");
                rust
            });
            let tables: Vec<_> = rust_builds::$module::tables_of(&rust).collect();
            let rows = tables.iter().flat_map(|table| table.rows());
            (found(rows, points.xs.len(), $in_order), nanoseconds)
        }
    };
}

rust_load!(untouched_load, untouched, features, false);
rust_load!(patched_load, patched, features, true);
rust_load!(figures_load, untouched, features_with_energies, false);

/// What a build left: how many points all tables hold, the entries of the finest one, and every entry and
/// slot in its order. The window block changes the order of the slots, and by that the last bits of a centre.
fn found(rows: impl Iterator<Item = Row>, finest: usize, in_order: bool) -> Found {
    let (mut count, mut members, mut order) = (0, 0_u64, 0_u64);
    for (at, Row { entry, slot }) in rows.enumerate() {
        count += entry.num as usize;
        let entry = mixed(&entry.words());
        let slot = [u64::from(slot.place), slot.at[0].to_bits(), slot.at[1].to_bits()];
        if at < finest {
            members = members.wrapping_add(entry);
        }
        order = mixed(&[order, entry, mixed(&slot)]);
    }
    Found { count, members, order: in_order.then_some(order) }
}

/// One word of several, in their order.
fn mixed(words: &[u64]) -> u64 {
    words.iter().fold(0, |mix, word| {
        let mix = (mix.rotate_left(23) ^ word).wrapping_mul(0x9e37_79b9_7f4a_7c15);
        mix ^ (mix >> 29)
    })
}

/// Two lines: the memory of the port and of the Rust, each in a process of its own, without energies in its features and
/// with them.
fn peaks(shape: Shape, count: usize) -> Result<(), String> {
    let of = |side: &str| memory::of_process(&["peak", side, shape.name(), &count.to_string()]);
    let (port, what) = (of(PORT)?, named(shape, count));
    table::memory_line(&what, port, of(UNTOUCHED)?);
    table::memory_line(&format!("{what}, features with energies"), port, of(FIGURES)?);
    Ok(())
}

/// The process whose memory is measured: makes the points in the form that a side takes, and loads them once.
pub fn peak(side: &str, shape: &str, count: &str) -> Option<Peak> {
    let shape = SHAPES.into_iter().find(|known| known.name() == shape)?;
    let points = shape.points(count.parse().ok()?);
    match side {
        PORT => Some(memory::peak(points, |points| {
            let loaded = port::loaded(&points);
            (points, loaded)
        })),
        UNTOUCHED | FIGURES => {
            let features = match side {
                UNTOUCHED => features(&points),
                _ => features_with_energies(&points),
            };
            drop(points);
            Some(memory::peak(features, |features| {
                let mut rust = rust_builds::untouched::unloaded(&USUAL);
                rust.load(features).expect("points that are loaded");
                rust
            }))
        }
        _ => None,
    }
}
