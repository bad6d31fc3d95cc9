//! The package as a caller has it: both layers over the linked library.

mod index;
mod lent_tables;
mod owners;
mod pages;
mod posts;
mod readme;
mod refusals;
mod rooms;
mod worked;

use reachvolem::{CoordinateSystem, DataRange, Options, Supercluster};

/// The plan of the worked example: offset 0, scale 1.
pub const UNIT: CoordinateSystem = CoordinateSystem::Cartesian {
    range: DataRange {
        min_x: 0.0,
        min_y: 0.0,
        max_x: 1.0,
        max_y: 1.0,
        offset: Some(0.0),
        scale: Some(1.0),
    },
};

/// The worked example's options.
pub fn worked_options() -> Options {
    Options { max_zoom: 1, radius: 64.0, coordinate_system: UNIT, ..Options::default() }
}

/// The worked example's lamps: x, y, energies.
pub fn worked_lamps() -> ([f64; 4], [f64; 4], [u64; 4]) {
    let xs = [16384.0, 20480.0, 26624.0, 26624.0].map(|x: f64| x / 65536.0);
    (xs, [0.5; 4], [10, 20, 30, 40])
}

/// The worked example.
pub fn worked() -> Supercluster {
    let (xs, ys, energies) = worked_lamps();
    Supercluster::load(worked_options(), &xs, &ys, &energies).expect("accepted")
}

/// So many lamps, spread over the unit square in knots: x, y, energies.
pub fn spread(count: usize) -> (Vec<f64>, Vec<f64>, Vec<u64>) {
    let mut source = 1_u64;
    let mut unit = || {
        source = source.wrapping_mul(6364136223846793005).wrapping_add(1442695040888963407);
        (source >> 33) as f64 / (1_u64 << 31) as f64
    };
    let knots: Vec<[f64; 2]> = (0..count / 20 + 1).map(|_| [unit(), unit()]).collect();
    let mut near = |knot: f64| (knot + 0.02 * unit()).min(1.0);
    let (mut xs, mut ys) = (Vec::new(), Vec::new());
    for at in 0..count {
        let [x, y] = knots[at % knots.len()];
        xs.push(near(x));
        ys.push(near(y));
    }
    let energies = (0..count as u64).map(|at| at * 37 % 1000).collect();
    (xs, ys, energies)
}

/// Such lamps, built.
pub fn built(options: Options, count: usize) -> Supercluster {
    let (xs, ys, energies) = spread(count);
    Supercluster::load(options, &xs, &ys, &energies).expect("accepted")
}

#[test]
fn a_build_can_be_asked_from_several_threads() {
    fn shared<T: Send + Sync>(_: &T) {}
    let lamps = worked();
    shared(&lamps);
    let tallies = std::thread::scope(|scope| {
        [(); 2].map(|()| scope.spawn(|| lamps.tally(0, 0, 0))).map(|thread| thread.join().unwrap())
    });
    assert_eq!(tallies, [Ok(4), Ok(4)]);
}
