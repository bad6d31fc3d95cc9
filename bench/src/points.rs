//! The points that are measured with, all within [0,1].

use options::MOST_ENERGY;
use splitmix::Splitmix;

/// The columns of the points, and their energies.
pub struct Points {
    pub xs: Vec<f64>,
    pub ys: Vec<f64>,
    pub energies: Vec<u64>,
}

impl Points {
    /// These points, with energies by a generator of their own.
    fn of(xs: Vec<f64>, ys: Vec<f64>) -> Points {
        let mut source = Splitmix(7);
        let energies = xs.iter().map(|_| source.below(MOST_ENERGY + 1)).collect();
        Points { xs, ys, energies }
    }
}

/// How points lie that tables are built of.
#[derive(Clone, Copy)]
pub enum Shape {
    Uniform,
    Clustered,
    /// All within one radius of each other, at every zoom of a load.
    Crowded,
}

/// The shapes that are loaded at every size.
pub const SHAPES: [Shape; 2] = [Shape::Uniform, Shape::Clustered];

impl Shape {
    pub fn name(self) -> &'static str {
        match self {
            Shape::Uniform => "uniform",
            Shape::Clustered => "clustered",
            Shape::Crowded => "crowded",
        }
    }

    /// So many points, the same ones in every process.
    pub fn points(self, count: usize) -> Points {
        let mut source = Splitmix(1);
        match self {
            Shape::Uniform => uniform(count, &mut source),
            Shape::Clustered => clustered(count, &mut source),
            Shape::Crowded => crowded(count, &mut source),
        }
    }
}

/// Points spread evenly over the unit square.
pub fn uniform(count: usize, source: &mut Splitmix) -> Points {
    let xs = (0..count).map(|_| source.unit()).collect();
    let ys = (0..count).map(|_| source.unit()).collect();
    Points::of(xs, ys)
}

/// Points close to one of a hundred centres each, the closer the more of them.
pub fn clustered(count: usize, source: &mut Splitmix) -> Points {
    let centres = uniform(100, source);
    let (mut xs, mut ys) = (Vec::new(), Vec::new());
    for _ in 0..count {
        let centre = source.below(100) as usize;
        let spread = 0.05 * source.unit() * source.unit();
        let mut near = |at: f64| (at + spread * (2.0 * source.unit() - 1.0)).clamp(0.0, 1.0);
        xs.push(near(centres.xs[centre]));
        ys.push(near(centres.ys[centre]));
    }
    Points::of(xs, ys)
}

/// Points in a square of a side of 2^-21: the radius of zoom 16 is 40 / (512 * 2^16), more than its diagonal.
fn crowded(count: usize, source: &mut Splitmix) -> Points {
    let Points { xs, ys, .. } = uniform(count, source);
    let drawn = |column: Vec<f64>| column.into_iter().map(|at| 0.5 + at / 2_097_152.0).collect();
    Points::of(drawn(xs), drawn(ys))
}

/// The same points in order of x.
pub fn in_order(points: &Points) -> Points {
    let mut order: Vec<usize> = (0..points.xs.len()).collect();
    order.sort_by(|a, b| points.xs[*a].total_cmp(&points.xs[*b]));
    let column = |column: &[f64]| order.iter().map(|at| column[*at]).collect();
    Points::of(column(&points.xs), column(&points.ys))
}
