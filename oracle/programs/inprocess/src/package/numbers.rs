//! Numbers that the package converts, beside the Rust's: a plan's coordinates, the zoom used, latitudes.

use super::{as_options, as_range};
use crate::report::{other, Group};
use options::{corners, Options, Plane, Range, UNIT, USUAL};
use points::odd::{EDGES, WILD};
use reachvolem::mercator;
use rust_builds::{patched, untouched};
use splitmix::Splitmix;

/// How many ranges and how many latitudes are tried.
const RANGES: usize = 2_000;
const LATITUDES: usize = 20_000;

/// All groups.
pub fn compared(source: &mut Splitmix) -> Vec<Group> {
    vec![ranges(source), zooms(), latitudes(source)]
}

/// Whether two numbers are the same: NaN is NaN, and the zeros are equal.
fn is(one: f64, other: f64) -> bool {
    one == other || one.is_nan() && other.is_nan()
}

/// How a number is not the expected one, if it is not.
fn other_number(name: &str, expected: f64, found: f64) -> Option<String> {
    (!is(expected, found)).then(|| format!("{name}: expected {expected:?}, found {found:?}"))
}

/// Ranges as users have them and any, and odd numbers in them, brought to 0 to 1 and back.
fn ranges(source: &mut Splitmix) -> Group {
    let mut group = Group::new("package, normalize and denormalize beside the Rust");
    for number in 0..RANGES {
        let range = match corners::plane(number, source) {
            Plane::Cartesian(range) => range,
            Plane::Globe => odd_range(source),
        };
        let (theirs, ours) = (untouched::data_range(&range), as_range(&range));
        for v in EDGES.into_iter().chain(WILD).chain([source.unit(), 1e3 * source.unit()]) {
            let about = || format!("{v:?} in {range:?}");
            let back = other_number("back", theirs.denormalize(v), ours.denormalize(v));
            let normalized = other_number("normalised", theirs.normalize(v), ours.normalize(v));
            group.compare(about, normalized.or(back));
        }
    }
    group
}

/// A range of odd numbers. Two zeros of both signs, of which the Rust may take either, are not among them.
fn odd_range(source: &mut Splitmix) -> Range {
    let [min_x, min_y, max_x, max_y] = [(); 4].map(|()| match source.pick(&WILD) {
        v if v == 0.0 => 0.0,
        v => v,
    });
    let given = |v, bits: u64| (bits % 2 == 0).then_some(v);
    let [offset, scale] = [UNIT.offset, UNIT.scale].map(|v| given(v?, source.bits()));
    Range { min_x, min_y, max_x, max_y, offset, scale }
}

/// Every zoom of some options in their bounds.
fn zooms() -> Group {
    let mut group = Group::new("package, zoom used beside the Rust");
    for [min_zoom, max_zoom] in corners::ZOOMS {
        let options = Options { min_zoom, max_zoom, ..USUAL };
        let (rust, ours) = (untouched::unloaded(&options), as_options(&options));
        for zoom in 0..=u8::MAX {
            let found = usize::from(ours.zoom_used(zoom));
            let about = || format!("{zoom} of {min_zoom} to {max_zoom}");
            group.compare(about, other("zoom", rust.limit_zoom(zoom), found));
        }
    }
    group
}

/// Latitudes: the poles, the equator, beyond them, and any. The Rust's y is read from its finest table.
fn latitudes(source: &mut Splitmix) -> Group {
    let mut group = Group::new("package, latitudes beside the Rust");
    let mut all = vec![90.0, -90.0, 0.0, -0.0, 85.0511287798066, -85.0511287798066, 91.0, -1e9];
    all.extend((0..LATITUDES).map(|_| 180.0 * source.unit() - 90.0));
    let options = Options { min_zoom: 30, max_zoom: 30, radius: 0.0, plane: Plane::Globe, ..USUAL };
    let loaded = patched::loaded(&options, &vec![0.0; all.len()], &all);
    let finest = patched::tables_of(&loaded).next().expect("the finest table");
    for (latitude, row) in all.iter().zip(finest.rows()) {
        let found = mercator::y_of(*latitude);
        group.compare(|| format!("{latitude:?}"), other_number("y", row.entry.y, found));
    }
    group
}
