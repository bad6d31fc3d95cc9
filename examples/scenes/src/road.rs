//! A road: a curve by four places, and lamps along it.

use crate::scene::Place;

/// How many steps the curve is walked in.
const STEPS: u32 = 4_000;

/// A cubic curve from the first place to the last; the two between draw it to themselves.
#[derive(Clone, Copy)]
pub struct Road(pub [Place; 4]);

impl Road {
    /// A straight road.
    pub fn straight(from: Place, to: Place) -> Road {
        let third = |part: f64| [0, 1].map(|axis| from[axis] + (to[axis] - from[axis]) * part);
        Road([from, third(1.0 / 3.0), third(2.0 / 3.0), to])
    }

    /// The place after a part of the way.
    fn at(&self, part: f64) -> Place {
        let rest = 1.0 - part;
        let weights = [
            rest * rest * rest,
            3.0 * rest * rest * part,
            3.0 * rest * part * part,
            part * part * part,
        ];
        [0, 1].map(|axis| {
            self.0.iter().zip(weights).fold(0.0, |sum, (place, weight)| sum + place[axis] * weight)
        })
    }

    /// How far down the map a road lies that goes from left to right, at this x.
    pub fn height(&self, x: f64) -> f64 {
        let parts = (0..=STEPS).map(|step| f64::from(step) / f64::from(STEPS));
        let places = parts.map(|part| self.at(part));
        places.take_while(|place| place[0] <= x).last().unwrap_or(self.0[0])[1]
    }

    /// Lamps along the road, the first at its start, left and right in turn by so much off the middle. The
    /// gap to the next lamp may differ with the part of the way that is gone.
    pub fn lamps(&self, gap: impl Fn(f64) -> f64, off: f64) -> Vec<Place> {
        let mut lamps = Vec::new();
        let (mut before, mut gone) = (self.at(0.0), f64::INFINITY);
        for step in 1..=STEPS {
            let part = f64::from(step) / f64::from(STEPS);
            let here = self.at(part);
            let [dx, dy] = [here[0] - before[0], here[1] - before[1]];
            let length = (dx * dx + dy * dy).sqrt();
            gone += length;
            if gone >= gap(part) {
                gone = 0.0;
                let side = if lamps.len() % 2 == 0 { off } else { -off };
                lamps.push([here[0] - side * dy / length, here[1] + side * dx / length]);
            }
            before = here;
        }
        lamps
    }
}
