//! Changes of a state, and of how long its columns are.

use crate::Build;
use columns::{width, Change, Value, NAMES};
use options::{Options, Plane, Range, MOST_POINTS, UNIT};
use questions::{State, ZOOMS};
use splitmix::Splitmix;

/// A zoom: most often a built one.
fn zoom(state: &State, source: &mut Splitmix) -> usize {
    match source.below(4) {
        0 => source.below(ZOOMS as u64) as usize,
        _ => state.zoom_used(source.below(ZOOMS as u64) as u8).min(ZOOMS - 1),
    }
}

/// Another number: beside this one, at the ends, or anything.
fn another(number: u32, source: &mut Splitmix) -> u32 {
    match source.below(6) {
        0 => number.wrapping_add(1),
        1 => number.wrapping_sub(1),
        2 => number.wrapping_neg(),
        3 => source.bits() as u32,
        _ => source.pick(&[0, 1, 2, u32::MAX, 1 << 31]),
    }
}

/// The length of a table.
pub fn length(build: &mut Build, source: &mut Splitmix) {
    let zoom = zoom(&build.state, source);
    let length = &mut build.state.lens[zoom];
    *length = another(*length, source);
}

/// The start of a table.
pub fn start(build: &mut Build, source: &mut Splitmix) {
    let zoom = zoom(&build.state, source);
    let start = &mut build.state.starts[zoom];
    *start = another(*start, source);
}

/// N.
pub fn count(build: &mut Build, source: &mut Splitmix) {
    build.state.count = match source.below(3) {
        0 => source.pick(&[0, MOST_POINTS, MOST_POINTS + 1]) as u32,
        _ => another(build.state.count, source),
    };
}

/// Every start: all moved on, or in the order of the zooms.
pub fn all_starts(build: &mut Build, source: &mut Splitmix) {
    let State { starts, lens, .. } = &mut build.state;
    match source.below(2) {
        0 => starts.iter_mut().for_each(|start| *start = start.wrapping_add(1)),
        _ => {
            let mut end = 0_u32;
            for (start, length) in starts.iter_mut().zip(lens) {
                *start = end;
                end = end.wrapping_add(*length);
            }
        }
    }
}

/// Tables of other lengths, packed as they should be, as far as the columns reach or beyond.
pub fn cut_otherwise(build: &mut Build, source: &mut Splitmix) {
    let State { options, count, starts, lens } = &mut build.state;
    let (finest, coarsest) = (options.max_zoom.min(30) + 1, options.min_zoom.min(30));
    let mut end = starts[usize::from(finest)].wrapping_add(lens[usize::from(finest)]);
    for zoom in (usize::from(coarsest)..usize::from(finest)).rev() {
        lens[zoom] = 1 + source.below(u64::from(*count).clamp(1, 64)) as u32;
        starts[zoom] = end;
        end = end.wrapping_add(lens[zoom]);
    }
}

/// What stands at zooms that are not built.
pub fn not_built(build: &mut Build, source: &mut Splitmix) {
    let State { options, starts, lens, .. } = &mut build.state;
    let built = usize::from(options.min_zoom)..=usize::from(options.max_zoom) + 1;
    for zoom in (0..ZOOMS).filter(|zoom| !built.contains(zoom)) {
        (starts[zoom], lens[zoom]) = (another(0, source), another(0, source));
    }
}

/// One option out of its bounds.
pub fn out_of_bounds(build: &mut Build, source: &mut Splitmix) {
    let options = &mut build.state.options;
    let wild = source.pick(&[f64::NAN, f64::INFINITY, -1.0, 65_537.0, f64::MAX, 0.5]);
    *options = match source.below(6) {
        0 => Options { max_zoom: source.pick(&[31, 32, 255]), ..*options },
        1 => Options { min_zoom: options.max_zoom.wrapping_add(1), ..*options },
        2 => Options { radius: wild, ..*options },
        3 => Options { extent: wild, ..*options },
        4 => Options { node_size: source.pick(&[0, 65_536, usize::MAX, 1 << 32]), ..*options },
        _ => Options { plane: Plane::Cartesian(wrong_range(source)), ..*options },
    };
}

/// A range that is out of bounds.
fn wrong_range(source: &mut Splitmix) -> Range {
    source.pick(&[
        Range { min_x: f64::NAN, ..UNIT },
        Range { max_y: f64::INFINITY, ..UNIT },
        Range { offset: Some(f64::NEG_INFINITY), ..UNIT },
        Range { scale: Some(0.0), ..UNIT },
        Range { scale: Some(-1.0), ..UNIT },
        Range { scale: Some(f64::NAN), ..UNIT },
        Range { max_x: 0.0, max_y: 0.0, scale: None, ..UNIT },
    ])
}

/// One option within its bounds, other than the tables were made with.
pub fn another_option(build: &mut Build, source: &mut Splitmix) {
    let options = &mut build.state.options;
    *options = match source.below(6) {
        0 | 1 => Options { node_size: source.pick(&[1, 2, 3, 8, 65_535]), ..*options },
        2 => Options { radius: source.pick(&[0.0, -0.0, 1.0, 300.0, 65_536.0]), ..*options },
        3 => Options { extent: source.pick(&[1.0, 2.5, 4_096.0, 65_536.0]), ..*options },
        4 => Options { min_points: source.bits() as u8, ..*options },
        _ => Options { plane: source.pick(&[Plane::Globe, Plane::Cartesian(UNIT)]), ..*options },
    };
}

/// Fewer or more zooms.
pub fn zooms(build: &mut Build, source: &mut Splitmix) {
    let options = &mut build.state.options;
    match source.below(4) {
        0 => options.min_zoom = options.min_zoom.saturating_sub(1),
        1 | 2 => options.min_zoom = (options.min_zoom + 1).min(options.max_zoom),
        _ => options.max_zoom = source.pick(&[options.max_zoom.saturating_sub(1), 30, 29]),
    }
}

/// A column of which the last entry of the last table is not there, or more.
pub fn short_column(build: &mut Build, source: &mut Splitmix) {
    let State { options, starts, lens, .. } = &build.state;
    let last = usize::from(options.min_zoom).min(ZOOMS - 1);
    let end = starts[last].wrapping_add(lens[last]) as usize;
    let length = match source.below(4) {
        0 => source.below(end as u64 + 1) as usize,
        1 => end,
        _ => end.wrapping_sub(1),
    };
    // The last but one has two numbers an entry, and may have one of them more.
    let at = source.below(NAMES.len() as u64 + 1) as usize;
    let odd = usize::from(at == NAMES.len());
    let name = NAMES[at.min(NAMES.len() - 1)];
    let length = length.saturating_mul(width(name)).saturating_add(odd);
    build.columns.change(&mut Truncated { name, length });
}

/// One column, cut off.
struct Truncated {
    name: &'static str,
    length: usize,
}

impl Change for Truncated {
    fn column<T: Value>(&mut self, name: &'static str, column: &mut Vec<T>) {
        if name == self.name {
            column.truncate(self.length);
        }
    }
}
