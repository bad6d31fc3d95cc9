//! The builds that are asked: every number of points up to 700, options at SCOPE's bounds and ordinary ones; and a few
//! large ones.

use crate::{edges, large, latitudes::latitudes, Form, Scene};
use columns::{Columns, Given};
use options::{corners, Options, Plane};
use points::{DRAWN, SHAPES};
use questions::State;
use rust_builds::Tables;
use splitmix::Splitmix;

/// A build by the patched Rust, or what is left of one that was changed.
pub struct Build {
    /// What it is, in words.
    pub what: String,
    /// The points as a caller of the Rust has them: on the globe the second column holds latitudes.
    pub points: [Vec<f64>; 2],
    /// The second column as a caller of the port has it.
    pub ys: Vec<f64>,
    pub energies: Vec<u64>,
    /// Whether these are the Rust's y of those latitudes.
    pub on_the_globe: bool,
    pub state: State,
    pub columns: Columns,
    /// For each table, the finest first, the place of the entry that the Rust lists each lamp for; nothing where no build made them.
    pub listed: Vec<u32>,
}

impl Build {
    /// So many points of a shape, drawn together, in the coordinate system of the options.
    pub fn made(options: Options, count: usize, source: &mut Splitmix) -> Build {
        let (shape, drawn) = (source.pick(&SHAPES), source.pick(&DRAWN));
        let points = points::made(shape, count, source).drawn(drawn, source).placed(&options.plane);
        Build::of(format!("{count} points, {shape:?}, drawn {drawn:?}"), options, points)
    }

    /// Points as a caller of the Rust has them.
    pub fn of(what: String, options: Options, points: [Vec<f64>; 2]) -> Build {
        let [xs, ys] = &points;
        let energies = points::energies(xs, ys);
        let tables = rust_builds::patched::tables(&options, &Given { xs, ys, energies: &energies });
        let ys = tables.lent_ys(&options.plane, ys);
        let Tables { columns, starts, lens, listed } = tables;
        let state = State { options, count: points[0].len() as u32, starts, lens };
        let on_the_globe = matches!(options.plane, Plane::Globe);
        Build { what, points, ys, energies, on_the_globe, state, columns, listed }
    }

    /// What it is, and its options.
    pub fn name(&self) -> String {
        format!("{}, {:?}", self.what, self.state.options)
    }

    /// The points as a caller of the port has them.
    pub fn given(&self) -> Given<'_> {
        Given { xs: &self.points[0], ys: &self.ys, energies: &self.energies }
    }

    pub fn scene(&self) -> Scene<'_> {
        Scene { state: &self.state, lent: self.columns.lent(), xs: &self.points[0], ys: &self.ys }
    }

    /// A latitude of which the Rust makes this y: a lamp's, or one of those that boxes are laid by. For a y
    /// that is outside [0,1] or no number, a latitude beyond the poles or none.
    pub fn latitude(&self, y: f64) -> Option<f64> {
        if !(0.0..=1.0).contains(&y) {
            return Some(90.0 - 180.0 * y);
        }
        let lamps = self.points[1].iter().zip(&self.ys).filter(|_| self.on_the_globe);
        let mut known = lamps.chain(latitudes().iter().map(|[latitude, y]| (latitude, y)));
        known.find(|(_, known)| known.to_bits() == y.to_bits()).map(|(latitude, _)| *latitude)
    }

    /// The corners of a box as a caller of the Rust has them: on the globe it names latitudes, the lower one
    /// first, which is the greater y.
    pub fn rust_corners(&self, [w, least, e, greatest]: [f64; 4]) -> Option<[f64; 4]> {
        match self.state.options.plane {
            Plane::Cartesian(_) => Some([w, least, e, greatest]),
            Plane::Globe => Some([w, self.latitude(greatest)?, e, self.latitude(least)?]),
        }
    }
}

/// Numbers of points, and how many builds each has in the short form and in the full one.
pub type Sizes = (Vec<usize>, [usize; 2]);

/// Those of the builds that are asked.
fn sizes() -> [Sizes; 4] {
    [
        ((1..=64).collect(), [4, 150]),
        ((65..=700).step_by(9).collect(), [1, 20]),
        ((65..=700).collect(), [0, 20]),
        (vec![1, 2, 3, 5, 8], [24, 600]),
    ]
}

/// How many builds have their lamps on the edges of tiles, in the short form and in the full one.
const ON_EDGES: [usize; 2] = [150, 4_800];

/// How many builds have their lamps at the rounded edge of a ring, in the short form and in the full one, and how many
/// lamps they have at most.
const AT_RINGS: [usize; 2] = [150, 4_800];
const AT_RINGS_MOST: u64 = 24;

/// Every number of points as often as a form has it, half of them with options as users have them and half with any.
pub fn each_count(
    sizes: &[Sizes],
    form: Form,
    source: &mut Splitmix,
    mut ask: impl FnMut(Options, usize, &mut Splitmix),
) {
    for (counts, builds) in sizes {
        for count in counts {
            for build in 0..form.of(*builds) {
                ask(corners::in_turn(build, source), *count, source);
            }
        }
    }
}

/// Every build of a form: those with lamps on the edges of tiles; those of every number of points; the large ones; and
/// those with lamps at the edges of rings.
pub fn each(form: Form, source: &mut Splitmix, mut ask: impl FnMut(&Build, &mut Splitmix)) {
    for _ in 0..form.of(ON_EDGES) {
        ask(&edges::build(source), source);
    }
    each_count(&sizes(), form, source, |options, count, source| {
        ask(&Build::made(options, count, source), source);
    });
    large::each(form, source, |build, source| ask(&build, source));
    // By a generator of their own, so that what comes after all builds does not depend on them.
    let mut source = Splitmix(5);
    for _ in 0..form.of(AT_RINGS) {
        let count = 1 + source.below(AT_RINGS_MOST) as usize;
        let (options, points) = points::reached(count, &mut source);
        ask(&Build::of(format!("{count} points at a ring"), options, points), &mut source);
    }
}
