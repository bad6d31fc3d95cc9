//! Builds with many lamps: in the index of such a table a search narrows by many medians before it comes to the slots that it tests.

use crate::{Build, Form};
use options::{corners, Options};
use points::Shape;
use splitmix::Splitmix;

/// How the lamps lie: many of them in one place would make the Rust search for each among all.
const SHAPES: [Shape; 3] = [Shape::Random, Shape::Grid, Shape::Clustered];

/// Node sizes, small and large.
const NODE_SIZES: [usize; 5] = [10, 64, 64, 512, 2_047];

/// How many lamps the builds have, in the short form and in the full one.
fn counts(form: Form) -> &'static [usize] {
    match form {
        Form::Short => &[140_000],
        Form::Full => &[131_072, 131_073, 140_000, 150_000, 200_000, 262_144],
    }
}

/// Every large build of a form, with options as users have them.
pub fn each(form: Form, source: &mut Splitmix, mut ask: impl FnMut(Build, &mut Splitmix)) {
    for (count, shape) in counts(form).iter().zip(SHAPES.iter().cycle()) {
        let node_size = source.pick(&NODE_SIZES);
        let options = Options { node_size, ..corners::ordinary(source) };
        let points = points::made(*shape, *count, source).placed(&options.plane);
        ask(Build::of(format!("{count} points, {shape:?}"), options, points), source);
    }
}
