//! The builds over which boxes are laid: small ones, most of them with an index that is split.

use crate::Form;
use asked::Build;
use options::{corners, Options, Plane};
use splitmix::Splitmix;

/// How many builds there are, in the short form and in the full one.
const BUILDS: [usize; 2] = [2_000, 20_000];

/// How many points a build has at most.
const MOST: [u64; 4] = [5, 12, 30, 100];

/// Every build of a form, a half of them on the globe.
pub fn each(form: Form, source: &mut Splitmix, mut ask: impl FnMut(&Build, &mut Splitmix)) {
    for build in 0..form.of(BUILDS) {
        let options = match build % 4 {
            0 | 1 => corners::ordinary(source),
            _ => corners::any(source),
        };
        let plane = if build % 2 == 0 { Plane::Globe } else { options.plane };
        let node_size = source.pick(&[1, 1, 2, 3, 5, options.node_size]);
        let most = source.pick(&MOST);
        let count = 1 + source.below(most) as usize;
        ask(&Build::made(Options { plane, node_size, ..options }, count, source), source);
    }
}
