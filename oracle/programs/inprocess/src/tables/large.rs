//! Ten builds of 100,000 to 1,048,576 points, beside the patched Rust.

use super::{cases::Case, outcome::Request};
use crate::{package::needed, report::Group};
use options::{corners, Options, Plane, USUAL};
use points::{Drawn, Shape};
use splitmix::Splitmix;

/// Number of points, shape, how they are drawn together, options.
type Build = (usize, Shape, Drawn, Options);

pub fn run(source: &mut Splitmix) -> Group {
    let mut group = Group::new("tables, large builds");
    for (count, shape, drawn, options) in builds(source) {
        let case = Case::made(options, shape, drawn, count, source);
        group.compare(|| case.name(), differs(&case));
    }
    group
}

#[rustfmt::skip]
fn builds(source: &mut Splitmix) -> [Build; 10] {
    let [given, derived] = [3, 7].map(|kind| corners::plane(kind, source));
    let globe = Plane::Globe;
    [
        (100_000, Shape::Random, Drawn::Not, USUAL),
        (100_000, Shape::Clustered, Drawn::Not, Options { plane: globe, ..USUAL }),
        (150_000, Shape::Grid, Drawn::Not, Options { node_size: 3, plane: derived, ..USUAL }),
        (200_000, Shape::Sorted, Drawn::Not, Options { min_points: 255, radius: 61.7, ..USUAL }),
        (250_000, Shape::AllEqual, Drawn::Not, Options { max_zoom: 3, radius: 0.0, ..USUAL }),
        (300_000, Shape::TwoValued, Drawn::By(8), Options { node_size: 8, ..USUAL }),
        (400_000, Shape::Clustered, Drawn::Each, Options { min_zoom: 18, max_zoom: 30, ..USUAL }),
        (500_000, Shape::Random, Drawn::Not, Options { max_zoom: 12, min_points: 5, plane: given, ..USUAL }),
        (1_000_000, Shape::Clustered, Drawn::Not, Options { min_zoom: 4, plane: globe, ..USUAL }),
        (1_048_576, Shape::Random, Drawn::Not, USUAL),
    ]
}

/// How the port's build is not the patched Rust's, if it is not.
fn differs(case: &Case) -> Option<String> {
    let Case { options, xs, ys, .. } = case;
    let patched = rust_builds::patched::tables(options, &case.given(ys));
    let ys = patched.lent_ys(&options.plane, ys);
    let lengths = needed(options, xs.len());
    Request { options, given: case.given(&ys), lengths }.made().is_not(&patched)
}
