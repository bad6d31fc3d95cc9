//! Readings posted to builds: beside fresh loads with the new figures, in either order, and what is refused.

use crate::{spread, worked, worked_lamps, worked_options, UNIT};
use reachvolem::{
    lent::{self, Reply, State},
    CoordinateSystem, Options, Refused, Supercluster,
};

/// The largest figure.
const MOST: u64 = 1 << 40;

/// Numbers by chance, the same ones in every run.
struct Numbers(u64);

impl Numbers {
    /// A number below a bound of at most 2^43.
    fn below(&mut self, bound: u64) -> u64 {
        self.0 = self.0.wrapping_mul(6364136223846793005).wrapping_add(1442695040888963407);
        (self.0 >> 20) % bound
    }

    /// One of these.
    fn pick<T: Copy>(&mut self, choices: &[T]) -> T {
        choices[self.below(choices.len() as u64) as usize]
    }

    /// A figure: at its bounds, beside them, or any.
    fn figure(&mut self) -> u64 {
        let any = self.below(MOST + 1);
        self.pick(&[0, 1, MOST - 1, MOST, any, any, any])
    }

    /// Options within their bounds.
    fn options(&mut self) -> Options {
        let zooms = [[0, 0], [0, 1], [0, 8], [0, 16], [3, 5], [16, 16], [0, 30], [30, 30]];
        let [min_zoom, max_zoom] = self.pick(&zooms);
        Options {
            min_zoom,
            max_zoom,
            min_points: self.pick(&[0, 1, 2, 3, 9]),
            radius: self.pick(&[0.0, 40.0, 512.0, 4096.0]),
            node_size: self.pick(&[1, 2, 64]),
            coordinate_system: self.pick(&[CoordinateSystem::LatLng, UNIT]),
            ..Options::default()
        }
    }
}

/// What a build is loaded of.
#[derive(Clone)]
struct Given {
    options: Options,
    xs: Vec<f64>,
    ys: Vec<f64>,
    energies: Vec<u64>,
}

impl Given {
    /// So many lamps in knots, with options and energies by chance.
    fn by_chance(count: usize, numbers: &mut Numbers) -> Given {
        let (xs, ys, _) = spread(count);
        let energies = (0..count).map(|_| numbers.figure()).collect();
        Given { options: numbers.options(), xs, ys, energies }
    }

    /// One of its lamps.
    fn lamp(&self, numbers: &mut Numbers) -> u32 {
        numbers.below(self.xs.len() as u64) as u32
    }

    fn loaded(&self) -> Supercluster {
        Supercluster::load(self.options, &self.xs, &self.ys, &self.energies).expect("accepted")
    }
}

/// That two builds are the same: their states, every field of every table, their indexes and their owners.
fn are_same(one: &Supercluster, other: &Supercluster) {
    assert_eq!(one.state(), other.state());
    let [one, other] = [one, other].map(|lamps| {
        let Options { min_zoom, max_zoom, .. } = *lamps.options();
        let table = |zoom| (lamps.table(zoom).unwrap(), lamps.owners(zoom).unwrap());
        (min_zoom..=max_zoom + 1).map(table).collect::<Vec<_>>()
    });
    assert_eq!(one, other);
}

/// That all their columns are the same.
fn are_same_columns(one: &Supercluster, other: &Supercluster) {
    let (one, other) = (one.columns(), other.columns());
    assert_eq!(one.energy, other.energy);
    assert_eq!((one.x, one.y, one.coords), (other.x, other.y, other.coords));
    assert_eq!((one.seen, one.id, one.parent), (other.seen, other.id, other.parent));
    assert_eq!((one.num, one.ids, one.owners), (other.num, other.ids, other.owners));
}

#[test]
fn all_is_as_a_fresh_load_leaves_it() {
    let mut numbers = Numbers(110);
    let mut clusters = 0;
    for build in 0..240 {
        let mut given = Given::by_chance(1 + build % 60, &mut numbers);
        let mut lamps = given.loaded();
        clusters += lamps.columns().num.iter().filter(|num| **num > 1).count();
        for _ in 0..5 {
            let (lamp, figure) = (given.lamp(&mut numbers), numbers.figure());
            given.energies[lamp as usize] = figure;
            assert_eq!(lamps.post(lamp, figure), Ok(()));
            let fresh = given.loaded();
            are_same(&lamps, &fresh);
            are_same_columns(&lamps, &fresh);
        }
    }
    assert!(clusters > 1_000, "{clusters} clusters in all tables");
}

#[test]
fn every_lamp_of_a_larger_build() {
    let mut numbers = Numbers(1_110);
    let mut given = Given::by_chance(600, &mut numbers);
    given.options = Options { max_zoom: 8, coordinate_system: UNIT, ..Options::default() };
    let mut lamps = given.loaded();
    for lamp in 0..600 {
        given.energies[lamp] = numbers.figure();
        lamps.post(lamp as u32, given.energies[lamp]).unwrap();
    }
    are_same_columns(&lamps, &given.loaded());
}

#[test]
fn in_either_order() {
    let mut numbers = Numbers(2_110);
    for build in 0..120 {
        let given = Given::by_chance(2 + build % 40, &mut numbers);
        let first = given.lamp(&mut numbers);
        let second = (first + 1 + given.lamp(&mut numbers)) % given.xs.len() as u32;
        let readings = [(first, numbers.figure()), (second, numbers.figure())];
        if first == second {
            continue;
        }
        let [mut one, mut other] = [given.loaded(), given.loaded()];
        readings.iter().for_each(|(lamp, figure)| one.post(*lamp, *figure).unwrap());
        readings.iter().rev().for_each(|(lamp, figure)| other.post(*lamp, *figure).unwrap());
        are_same_columns(&one, &other);
    }
}

#[test]
fn the_last_figure_of_a_lamp_counts() {
    let mut numbers = Numbers(3_110);
    for build in 0..60 {
        let given = Given::by_chance(1 + build, &mut numbers);
        let lamp = given.lamp(&mut numbers);
        let mut lamps = given.loaded();
        for figure in [numbers.figure(), numbers.figure(), given.energies[lamp as usize]] {
            lamps.post(lamp, figure).unwrap();
        }
        are_same_columns(&lamps, &given.loaded());
    }
}

#[test]
fn of_the_worked_example() {
    let mut lamps = worked();
    assert_eq!(lamps.post(1, 25), Ok(()));
    let energies = |zoom| lamps.table(zoom).unwrap().iter().map(|entry| entry.energy).collect();
    let tables: [Vec<u64>; 3] = [2, 1, 0].map(energies);
    assert_eq!(tables, [vec![10, 25, 30, 40], vec![35, 70], vec![105]]);
    assert_eq!(lamps.columns().energy, [10, 25, 30, 40, 35, 70, 105]);
    let (xs, ys, _) = worked_lamps();
    let fresh = Supercluster::load(worked_options(), &xs, &ys, &[10, 25, 30, 40]).unwrap();
    are_same(&lamps, &fresh);
    are_same_columns(&lamps, &fresh);
}

#[test]
fn at_the_limits() {
    let mut lamps = worked();
    for (lamp, figure, total) in [(0, 0, 90), (3, MOST, MOST + 50), (3, 0, 50), (0, 10, 60)] {
        assert_eq!(lamps.post(lamp, figure), Ok(()));
        assert_eq!(lamps.entry(0, 0).unwrap().energy, total);
    }
    (0..4).for_each(|lamp| lamps.post(lamp, MOST).unwrap());
    assert_eq!(lamps.columns().energy, [1, 1, 1, 1, 2, 2, 4].map(|times| times * MOST));
}

#[test]
fn refusals_of_a_build_change_nothing() {
    let mut lamps = worked();
    for lamp in 0..4 {
        for figure in [MOST + 1, 1 << 63, u64::MAX] {
            let refused = lamps.post(lamp, figure).unwrap_err();
            assert_eq!(refused, Refused::Energy { at: lamp as usize });
            let sentence = format!("refused 15: point {lamp} brings more than 2^40 watt-hours");
            assert_eq!(refused.to_string(), sentence);
        }
    }
    for lamp in [4, 5, 8, 1 << 31, u32::MAX] {
        for figure in [0, MOST, MOST + 1, u64::MAX] {
            assert_eq!(lamps.post(lamp, figure), Err(Refused::Lamp));
        }
    }
    are_same_columns(&lamps, &worked());
}

/// A state and columns, as they are lent.
#[derive(Clone)]
struct Lent {
    state: State,
    energy: Vec<u64>,
    owners: Vec<u32>,
}

impl Lent {
    /// Those of the worked example.
    fn worked() -> Lent {
        let lamps = worked();
        let columns = lamps.columns();
        let (energy, owners) = (columns.energy.to_vec(), columns.owners.to_vec());
        Lent { state: *lamps.state(), energy, owners }
    }

    /// With this changed.
    fn with(&self, change: impl FnOnce(&mut Lent)) -> Lent {
        let mut changed = self.clone();
        change(&mut changed);
        changed
    }

    /// What is replied, and the energies afterwards.
    fn posted(&self, lamp: u32, figure: u64) -> (Reply, Vec<u64>) {
        let mut energy = self.energy.clone();
        let reply = lent::post(&self.state, &mut energy, &self.owners, lamp, figure);
        (reply, energy)
    }

    /// That a post is refused with this number, and nothing is carried and nothing written.
    fn refuses(&self, lamp: u32, figure: u64, number: u32) {
        let refused = (Reply { number, carried: 0 }, self.energy.clone());
        assert_eq!(self.posted(lamp, figure), refused, "lamp {lamp}, figure {figure}");
    }

    /// That a post is taken, and leaves these energies.
    fn takes(&self, lamp: u32, figure: u64, energy: &[u64]) {
        let done = (Reply { number: 0, carried: 0 }, energy.to_vec());
        assert_eq!(self.posted(lamp, figure), done, "lamp {lamp}, figure {figure}");
    }
}

#[test]
fn the_state_and_short_columns_come_first() {
    let worked = Lent::worked();
    let spoiled = [
        worked.with(|lent| lent.state.starts[1] += 1),
        worked.with(|lent| lent.state.lens[2] = 3),
        worked.with(|lent| lent.state.lens[0] = 0),
        worked.with(|lent| lent.state.lens[1] = 5),
        worked.with(|lent| lent.state.count = 3),
        worked.with(|lent| lent.state.count = 0),
        worked.with(|lent| lent.state.options.node_size = 0),
        worked.with(|lent| lent.state.options.max_zoom = 31),
        worked.with(|lent| lent.energy.truncate(6)),
        worked.with(|lent| lent.energy.clear()),
        worked.with(|lent| lent.owners.truncate(11)),
        worked.with(|lent| lent.owners.clear()),
    ];
    for lent in spoiled {
        for lamp in [0, 3, 4, u32::MAX] {
            [0, MOST, MOST + 1].iter().for_each(|figure| lent.refuses(lamp, *figure, 11));
        }
    }
}

#[test]
fn then_the_lamp_then_the_figure_then_what_does_not_fit() {
    let worked = Lent::worked();
    let spoiled = [
        worked.with(|lent| lent.owners[1] = 0),
        worked.with(|lent| lent.owners[1] = 4),
        worked.with(|lent| lent.owners[5] = 2),
        worked.with(|lent| lent.owners[9] = 1),
        worked.with(|lent| lent.owners[9] = u32::MAX),
        worked.with(|lent| lent.energy[4] = 19),
        worked.with(|lent| lent.energy[6] = 0),
        worked.with(|lent| lent.energy[1] = 31),
        worked.with(|lent| lent.energy[1] = u64::MAX),
        worked.with(|lent| lent.energy[4] = u64::MAX),
        worked.with(|lent| lent.energy[6] = u64::MAX),
    ];
    for lent in spoiled {
        lent.refuses(4, MOST + 1, 16);
        lent.refuses(u32::MAX, 25, 16);
        lent.refuses(1, MOST + 1, 15);
        lent.refuses(1, 25, 11);
    }
}

#[test]
fn sums_at_their_edges() {
    let worked = Lent::worked();
    // A sum that is just the figure so far, in the table of zoom 1.
    worked.with(|lent| lent.energy[4] = 20).takes(1, 25, &[10, 25, 30, 40, 25, 70, 105]);
    // One that the new figure, which is greater by 5, brings to the largest number of 64 bits, and one more.
    let largest = worked.with(|lent| lent.energy[6] = u64::MAX - 5);
    largest.takes(1, 25, &[10, 25, 30, 40, 35, 70, u64::MAX]);
    worked.with(|lent| lent.energy[6] = u64::MAX - 4).refuses(1, 25, 11);
    // A smaller figure brings none past 64 bits, and a figure so far may be any.
    worked.with(|lent| lent.energy[6] = u64::MAX).takes(
        1,
        15,
        &[10, 15, 30, 40, 25, 70, u64::MAX - 5],
    );
    let all = worked.with(|lent| [1, 4, 6].iter().for_each(|at| lent.energy[*at] = u64::MAX));
    all.takes(1, MOST, &[10, MOST, 30, 40, MOST, 70, MOST]);
}

#[test]
fn only_the_lamp_that_is_posted_to_is_looked_at() {
    let worked = Lent::worked();
    let other = worked.with(|lent| (lent.owners[0], lent.owners[4], lent.energy[0]) = (3, 9, 99));
    other.takes(1, 25, &[99, 25, 30, 40, 35, 70, 105]);
    other.refuses(0, 25, 11);
}

#[test]
fn what_stands_behind_the_tables_stays() {
    let longer = Lent::worked().with(|lent| {
        lent.energy.extend([u64::MAX, 7]);
        lent.owners.extend([u32::MAX, 0, 1]);
    });
    longer.takes(3, 0, &[10, 20, 30, 0, 30, 30, 60, u64::MAX, 7]);
    longer.refuses(4, 0, 16);
}
