//! What is printed for an input: the lines of its tables, the finest first, or the refusal of its build.

use crate::{Answer, Input};
use columns::{Entry, Given, NO_PARENT, UNSEEN};
use options::{Options, Plane, UNIT};
use refusals::{refusal, Refusal};
use rust_builds::{patched, Tables};
use std::fmt::Write;

/// The entries of each column that is lent.
pub(crate) const LENT: usize = 1_152;

/// The parts of a coordinate.
const PARTS: f64 = 65_536.0;

/// What stands for a number that is not set.
const UNSET: &str = "-";

/// What the lister prints for this input.
pub fn lines(input: &Input) -> Vec<u8> {
    answer(input).printed
}

/// What the lister answers to this input.
pub fn answer(input: &Input) -> Answer {
    let (options, [xs, ys], energies) = build_of(input);
    let given = Given { xs: &xs, ys: &ys, energies: &energies };
    let refused = refusal(&options, &given, LENT);
    let printed = match refused {
        None => listed(&options, &patched::tables(&options, &given)),
        Some(Refusal { number: 3, carried }) => format!("refusal=3 at={carried}\n"),
        Some(Refusal { number, .. }) => format!("refusal={number}\n"),
    };
    let number = refused.map_or(0, |refused| refused.number);
    Answer { number, printed: printed.into_bytes() }
}

/// The options, the points and their energies of an input.
pub(crate) fn build_of(input: &Input) -> (Options, [Vec<f64>; 2], Vec<u64>) {
    let energies = input.points.iter().map(|point| u64::from(point[2])).collect();
    (options_of(input), [0, 1].map(|axis| column(input, axis)), energies)
}

/// The options of an input: Cartesian with offset 0 and scale 1.
fn options_of(input: &Input) -> Options {
    Options {
        min_zoom: input.min_zoom,
        max_zoom: input.max_zoom,
        min_points: input.min_points,
        radius: f64::from(input.radius),
        extent: f64::from(input.extent),
        node_size: input.node_size as usize,
        plane: Plane::Cartesian(UNIT),
        longitude_strips_only: false,
    }
}

/// The coordinates of an axis.
fn column(input: &Input, axis: usize) -> Vec<f64> {
    input.points.iter().map(|point| f64::from(point[axis]) / PARTS).collect()
}

/// A line for each entry of each table.
fn listed(options: &Options, tables: &Tables) -> String {
    let mut text = String::new();
    let lent = tables.columns.lent();
    for zoom in (options.min_zoom..=options.max_zoom + 1).rev() {
        let start = tables.starts[usize::from(zoom)] as usize;
        for place in 0..tables.lens[usize::from(zoom)] as usize {
            let fields = fields(&lent.entry(start + place));
            writeln!(text, "{zoom} {place} {fields}").expect("a string takes any line");
        }
    }
    text
}

/// The last seven fields of an entry's line.
fn fields(entry: &Entry) -> String {
    let [x, y] = [entry.x, entry.y].map(f64::to_bits);
    let seen = or_unset(u32::from(entry.seen), u32::from(UNSEEN));
    let parent = or_unset(entry.parent, NO_PARENT);
    let Entry { id, num, energy, .. } = entry;
    format!("{x:016x} {y:016x} {seen} {id} {parent} {num} {energy}")
}

fn or_unset(number: u32, unset: u32) -> String {
    if number == unset {
        UNSET.to_string()
    } else {
        number.to_string()
    }
}
