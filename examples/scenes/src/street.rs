//! A street: a bent road, dense at the crossing in its middle and thin at both ends.

use crate::{
    road::Road,
    scene::{put_up, Scene},
};
use splitmix::Splitmix;

pub fn scene() -> Scene {
    let road = Road([[0.03, 0.55], [0.42, 0.28], [0.52, 0.86], [0.97, 0.44]]);
    let mut plan = road.lamps(|part| 0.0115 + 0.042 * (part - 0.47).abs(), 0.006);
    // A side road leaves at the crossing.
    let side = Road([[0.470, 0.552], [0.46, 0.51], [0.51, 0.45], [0.48, 0.38]]);
    plan.extend(side.lamps(|part| 0.011 + 0.02 * part, 0.004));
    // A yard at the far end, lit by five lamps.
    plan.extend([[0.885, 0.545], [0.897, 0.547], [0.891, 0.556], [0.882, 0.557], [0.900, 0.560]]);
    Scene { max_zoom: 4, radius: 80, lamps: put_up(plan, &mut Splitmix(1)) }
}
