//! A village: a square with a well, lanes that leave it, a churchyard, and farms at some distance.

use crate::{
    road::Road,
    scene::{put_up, Place, Scene},
};
use splitmix::Splitmix;

/// The corners of the square.
const SQUARE: [Place; 4] = [[0.44, 0.47], [0.56, 0.455], [0.57, 0.56], [0.445, 0.575]];

/// The lanes, from the square outwards.
const LANES: [[Place; 4]; 7] = [
    [[0.425, 0.46], [0.34, 0.42], [0.26, 0.30], [0.08, 0.27]],
    [[0.50, 0.44], [0.52, 0.34], [0.42, 0.22], [0.47, 0.07]],
    [[0.575, 0.45], [0.66, 0.40], [0.70, 0.24], [0.88, 0.18]],
    [[0.59, 0.51], [0.70, 0.50], [0.82, 0.56], [0.95, 0.50]],
    [[0.575, 0.575], [0.64, 0.66], [0.62, 0.80], [0.78, 0.92]],
    [[0.50, 0.59], [0.47, 0.68], [0.52, 0.80], [0.43, 0.94]],
    [[0.43, 0.58], [0.33, 0.64], [0.24, 0.60], [0.10, 0.74]],
];

/// A back lane between two of them.
const BACK_LANE: [Place; 4] = [[0.27, 0.35], [0.19, 0.42], [0.20, 0.54], [0.25, 0.615]];

/// Farms, each with a few lamps in its yard.
const FARMS: [Place; 4] = [[0.24, 0.13], [0.77, 0.36], [0.86, 0.74], [0.24, 0.86]];
const YARD: [Place; 4] = [[0.0, 0.0], [0.011, 0.004], [0.004, 0.013], [0.017, 0.016]];

pub fn scene() -> Scene {
    let mut plan = Vec::new();
    for (at, from) in SQUARE.iter().enumerate() {
        let side = Road::straight(*from, SQUARE[(at + 1) % SQUARE.len()]);
        let lamps = side.lamps(|_| 0.0195, 0.0);
        // The last one would stand at the corner of the next side.
        let count = lamps.len().min(6);
        plan.extend_from_slice(&lamps[..count]);
    }
    // The well.
    plan.extend([[0.498, 0.512], [0.506, 0.510], [0.507, 0.518], [0.499, 0.520]]);
    for lane in LANES {
        plan.extend(Road(lane).lamps(|part| 0.015 + 0.034 * part, 0.004));
    }
    plan.extend(Road(BACK_LANE).lamps(|_| 0.03, 0.004));
    plan.extend(churchyard());
    for farm in FARMS {
        plan.extend(YARD.map(|yard| [farm[0] + yard[0], farm[1] + yard[1]]));
    }
    Scene { max_zoom: 4, radius: 80, lamps: put_up(plan, &mut Splitmix(2)) }
}

/// Lamps around the church, and two at its door.
fn churchyard() -> Vec<Place> {
    let wall = Road([[0.605, 0.40], [0.60, 0.33], [0.68, 0.33], [0.685, 0.36]]);
    let mut lamps = wall.lamps(|_| 0.014, 0.0);
    lamps.extend([[0.63, 0.385], [0.636, 0.389]]);
    lamps
}
