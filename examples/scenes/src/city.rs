//! A corner of a city: a grid of streets, a boulevard across it, a park, and the waterfront with a pier.

use crate::{
    road::Road,
    scene::{put_up, Place, Scene},
};
use splitmix::Splitmix;

/// The avenues, by their y, and the streets, by their x.
const AVENUES: [f64; 6] = [0.04, 0.15, 0.27, 0.38, 0.49, 0.61];
const STREETS: [f64; 8] = [0.04, 0.16, 0.29, 0.42, 0.55, 0.69, 0.82, 0.95];

/// The boulevard, from the corner of the grid to the pier.
const BOULEVARD: Road = Road([[0.03, 0.09], [0.14, 0.22], [0.26, 0.50], [0.35, 0.70]]);

/// The park: from here to there.
const PARK: [Place; 2] = [[0.55, 0.15], [0.82, 0.38]];

/// Where the land ends.
const SHORE: Road = Road([[0.02, 0.83], [0.30, 0.66], [0.62, 0.88], [0.98, 0.68]]);

/// How far from the shore the streets end.
const QUAY: f64 = 0.035;

pub fn scene() -> Scene {
    let mut plan = Vec::new();
    for y in AVENUES {
        plan.extend(Road::straight([0.02, y], [0.98, y]).lamps(|_| 0.058, 0.005));
    }
    for x in STREETS {
        plan.extend(Road::straight([x, 0.085], [x, 0.80]).lamps(|_| 0.076, 0.005));
    }
    plan.extend(BOULEVARD.lamps(|_| 0.028, 0.008));
    plan.retain(|lamp| on_land(*lamp) && !in_park(*lamp));
    plan.extend(park());
    plan.extend(SHORE.lamps(|_| 0.021, 0.0));
    plan.extend(Road::straight([0.36, 0.785], [0.42, 0.97]).lamps(|_| 0.014, 0.007));
    Scene { max_zoom: 2, radius: 80, lamps: put_up(plan, &mut Splitmix(3)) }
}

fn in_park([x, y]: Place) -> bool {
    let [[left, top], [right, bottom]] = PARK;
    left + 0.01 < x && x < right - 0.01 && top + 0.01 < y && y < bottom - 0.01
}

fn on_land([x, y]: Place) -> bool {
    y < SHORE.height(x) - QUAY
}

/// Lamps along a path that winds through the park, and around its pond.
fn park() -> Vec<Place> {
    let path = Road([[0.565, 0.17], [0.80, 0.16], [0.58, 0.38], [0.805, 0.365]]);
    let mut lamps = path.lamps(|_| 0.021, 0.004);
    lamps.extend([
        [0.600, 0.305],
        [0.617, 0.290],
        [0.640, 0.294],
        [0.646, 0.316],
        [0.630, 0.332],
        [0.606, 0.327],
    ]);
    lamps
}
