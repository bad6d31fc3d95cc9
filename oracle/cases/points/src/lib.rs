//! Points for an index and for the tables: many shapes, all within [0,1].

mod drawn;
mod energies;
pub mod odd;
mod placed;
mod reached;

pub use drawn::{Drawn, DRAWN};
pub use energies::energies;
pub use odd::EDGES;
pub use reached::{fine, reached, steps_beside};

use splitmix::Splitmix;

/// How the points of an index lie.
#[derive(Clone, Copy, Debug)]
pub enum Shape {
    Random,
    Sorted,
    Reversed,
    AllEqual,
    TwoValued,
    Grid,
    Clustered,
    Edges,
}

pub const SHAPES: [Shape; 8] = [
    Shape::Random,
    Shape::Sorted,
    Shape::Reversed,
    Shape::AllEqual,
    Shape::TwoValued,
    Shape::Grid,
    Shape::Clustered,
    Shape::Edges,
];

/// Points by columns.
pub struct Points {
    pub shape: Shape,
    pub xs: Vec<f64>,
    pub ys: Vec<f64>,
}

impl Points {
    /// In words: `37 points, Sorted`.
    pub fn name(&self) -> String {
        format!("{} points, {:?}", self.xs.len(), self.shape)
    }
}

/// So many points of a shape.
pub fn made(shape: Shape, count: usize, source: &mut Splitmix) -> Points {
    let side = (count as f64).sqrt().ceil();
    let centres: Vec<[f64; 2]> = (0..7).map(|_| [source.unit(), source.unit()]).collect();
    let mut xs = Vec::with_capacity(count);
    let mut ys = Vec::with_capacity(count);
    for i in 0..count {
        let part = i as f64 / count as f64;
        let [x, y] = match shape {
            Shape::Random => [source.unit(), source.unit()],
            Shape::Sorted => [part, part],
            Shape::Reversed => [1.0 - part, 1.0 - part],
            Shape::AllEqual => [0.625, 0.375],
            Shape::TwoValued => [source.pick(&[0.25, 0.75]), source.pick(&[0.0, 1.0])],
            Shape::Grid => [(i as f64 % side) / side, (i as f64 / side).floor() / side],
            Shape::Clustered => source.pick(&centres).map(|at| near(at, source)),
            Shape::Edges => [source.pick(&EDGES), source.pick(&EDGES)],
        };
        xs.push(x);
        ys.push(y);
    }
    Points { shape, xs, ys }
}

/// A number close to this one, within [0,1].
fn near(at: f64, source: &mut Splitmix) -> f64 {
    let away = (source.unit() - 0.5) * (source.unit() - 0.5);
    (at + away / 16.0).clamp(0.0, 1.0)
}
