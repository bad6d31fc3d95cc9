//! The builds that are compared: options at SCOPE's bounds crossed, every number of points up to 700, and points at
//! the rounded edges of rings.

use crate::Form;
use asked::{each_count, Sizes};
use columns::Given;
use options::{corners, Options};
use points::{Drawn, Shape, DRAWN, SHAPES};
use splitmix::Splitmix;

/// One build: options, and the points as a caller of the Rust has them.
pub struct Case {
    pub options: Options,
    /// How the points lie, in words.
    what: String,
    pub xs: Vec<f64>,
    pub ys: Vec<f64>,
    pub energies: Vec<u64>,
}

impl Case {
    /// So many points of a shape, drawn together, in the coordinate system of the options.
    pub fn made(
        options: Options,
        shape: Shape,
        drawn: Drawn,
        count: usize,
        source: &mut Splitmix,
    ) -> Case {
        let points = points::made(shape, count, source).drawn(drawn, source);
        Case::of(options, format!("{shape:?}, drawn {drawn:?}"), points.placed(&options.plane))
    }

    /// These points.
    fn of(options: Options, what: String, [xs, ys]: [Vec<f64>; 2]) -> Case {
        let energies = points::energies(&xs, &ys);
        Case { options, what, xs, ys, energies }
    }

    /// The points as a caller of the port has them, where these are its y.
    pub fn given<'a>(&'a self, ys: &'a [f64]) -> Given<'a> {
        Given { xs: &self.xs, ys, energies: &self.energies }
    }

    /// In words.
    pub fn name(&self) -> String {
        let Case { options, what, xs, .. } = self;
        format!("{} points, {what}, {options:?}", xs.len())
    }
}

/// Every combination of options at the bounds, with a few points of each shape, the coordinate systems in
/// turn.
pub fn corners(form: Form, source: &mut Splitmix, mut compare: impl FnMut(&Case, &mut Splitmix)) {
    let most = form.of([40, 160]);
    let mut number = 0;
    for min_points in [0, 1, 2, 3, 255] {
        for radius in [0.0, 40.0, 512.0, 65_536.0] {
            for extent in [1.0, 512.0, 65_536.0] {
                for node_size in [1, 2, 3, 64, 65_535] {
                    for [min_zoom, max_zoom] in [[0, 0], [0, 16], [16, 16], [0, 30], [30, 30]] {
                        for shape in SHAPES {
                            let plane = corners::plane(number, source);
                            let options = Options {
                                min_zoom,
                                max_zoom,
                                min_points,
                                radius,
                                extent,
                                node_size,
                                plane,
                                longitude_strips_only: number / corners::PLANES % 2 == 1,
                            };
                            let drawn = DRAWN[number % DRAWN.len()];
                            let count = 1 + source.below(most) as usize;
                            compare(&Case::made(options, shape, drawn, count, source), source);
                            number += 1;
                        }
                        // The coordinate systems move on against the shapes.
                        number += 1;
                    }
                }
            }
        }
    }
}

/// Numbers of points, and how many builds each has in the short form and in the full one.
fn sizes() -> [Sizes; 4] {
    [
        ((1..=64).collect(), [160, 1_200]),
        ((65..=200).collect(), [24, 200]),
        ((201..=700).collect(), [4, 40]),
        ((597..=606).collect(), [24, 200]),
    ]
}

/// Every number of points, with shapes, coordinate systems and options by chance: ordinary ones, and any.
pub fn counts(form: Form, source: &mut Splitmix, mut compare: impl FnMut(&Case, &mut Splitmix)) {
    each_count(&sizes(), form, source, |options, count, source| {
        let (shape, drawn) = (source.pick(&SHAPES), source.pick(&DRAWN));
        compare(&Case::made(options, shape, drawn, count, source), source);
    });
}

/// Few points at the rounded edge of a ring by which clusters are made.
pub fn at_rings(form: Form, source: &mut Splitmix, mut compare: impl FnMut(&Case, &mut Splitmix)) {
    for _ in 0..form.of([2_000, 20_000]) {
        let count = 1 + source.below(30) as usize;
        let (options, points) = points::reached(count, source);
        compare(&Case::of(options, "at a ring".to_string(), points), source);
    }
}
