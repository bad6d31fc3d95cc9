//! Points drawn together: the distances at which they meet lie at other zooms then.

use crate::Points;
use splitmix::Splitmix;

/// How points are drawn together.
#[derive(Clone, Copy, Debug)]
pub enum Drawn {
    /// They are not.
    Not,
    /// All towards the first one, by this power of two.
    By(i32),
    /// Each towards the first one, by a power of two of its own: they meet at many zooms.
    Each,
}

/// Each way, in turn: not at all, by powers of two of their own, by a few, and by many.
pub const DRAWN: [Drawn; 6] =
    [Drawn::Not, Drawn::Each, Drawn::By(8), Drawn::Not, Drawn::Each, Drawn::By(22)];

/// The largest power of two by which a point is drawn.
const MOST: u64 = 36;

impl Points {
    /// These points, drawn together.
    pub fn drawn(mut self, drawn: Drawn, source: &mut Splitmix) -> Points {
        let first = [self.xs[0], self.ys[0]];
        for (x, y) in self.xs.iter_mut().zip(&mut self.ys) {
            let power = match drawn {
                Drawn::Not => break,
                Drawn::By(power) => power,
                Drawn::Each => source.below(MOST) as i32,
            };
            let towards = |v: f64, to: f64| (to + (v - to) * 0.5_f64.powi(power)).clamp(0.0, 1.0);
            (*x, *y) = (towards(*x, first[0]), towards(*y, first[1]));
        }
        self
    }
}
