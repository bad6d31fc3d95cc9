//! The Cartesian builds over which boxes are laid.

use crate::Form;
use asked::Build;
use options::{corners, Options, Plane, Range, UNIT};
use splitmix::Splitmix;

/// How many builds there are, in the short form and in the full one.
const BUILDS: [usize; 2] = [600, 6_000];

/// How many points a build has at most: few, more of them, and as many as the untouched Rust arranges alike.
const MOST: [u64; 5] = [8, 40, 40, 200, 601];

/// Every build of a form, with its range.
pub fn each(form: Form, source: &mut Splitmix, mut ask: impl FnMut(&Build, Range, &mut Splitmix)) {
    for build in 0..form.of(BUILDS) {
        // Half of them with options as users have them, half with any.
        let options = corners::in_turn(build, source);
        let range = range(&options, source);
        let options = Options { plane: Plane::Cartesian(range), ..options };
        let most = source.pick(&MOST);
        let count = 1 + source.below(most) as usize;
        ask(&Build::made(options, count, source), range, source);
    }
}

/// The range of the options; in a half of the builds another, in which zero lies, and for any on the globe.
fn range(options: &Options, source: &mut Splitmix) -> Range {
    match options.plane {
        Plane::Cartesian(range) if source.below(2) == 0 => range,
        _ => source.pick(&[UNIT, around_zero(1.0), around_zero(1e6), around_zero(1e-300)]),
    }
}

/// From -half to half.
fn around_zero(half: f64) -> Range {
    let (offset, scale) = (Some(-half), Some(2.0 * half));
    Range { min_x: -half, min_y: -half, max_x: half, max_y: half, offset, scale }
}
