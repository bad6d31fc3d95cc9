//! Builds of lamps on the borders of tiles, one step of the format beside them, and at both ends; and of lamps anywhere.

use crate::Form;
use asked::Build;
use options::corners;
use points::{Points, Shape};
use splitmix::Splitmix;

/// How many builds there are, in the short form and in the full one.
const BUILDS: [usize; 2] = [300, 5_000];

/// How many lamps a build has at most.
const MOST: [u64; 4] = [4, 12, 40, 200];

/// Every build of a form: in every coordinate system, half of them with options as users have them, half with any.
pub fn each(form: Form, source: &mut Splitmix, mut compare: impl FnMut(&Build)) {
    for number in 0..form.of(BUILDS) {
        let options = corners::in_turn(number, source);
        let most = source.pick(&MOST);
        let count = 1 + source.below(most) as usize;
        let build = match number % 3 {
            0 => Build::made(options, count, source),
            _ => {
                let [xs, ys] = [(); 2].map(|()| (0..count).map(|_| border(source)).collect());
                let points = Points { shape: Shape::AllEqual, xs, ys }.placed(&options.plane);
                Build::of(format!("{count} points on borders of tiles"), options, points)
            }
        };
        compare(&build);
    }
}

/// A border of the tiles of a zoom up to 7, or one step beside it; or an end.
fn border(source: &mut Splitmix) -> f64 {
    let z = source.below(8);
    let at = source.below((1 << z) + 1) as f64 / (1_u64 << z) as f64;
    let beside = [at.next_down(), at, at, at.next_up(), 0.0, -0.0, 1.0, f64::MIN_POSITIVE];
    source.pick(&beside).clamp(-0.0, 1.0)
}
