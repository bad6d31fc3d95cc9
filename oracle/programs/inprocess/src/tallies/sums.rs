//! Every tile of the zooms up to 6, over the port's own build: its tally is the sum of num over the entries of the table
//! whose centre it holds, by whole numbers on their bits; and over all tiles of a zoom the tallies sum to N.

use super::port_says;
use crate::{
    questions::port::Port,
    report::{other, Group},
};
use asked::Build;
use options::Plane;
use questions::{home, State};
use reachvolem::lent::Reply;
use std::collections::BTreeMap;

/// The last zoom of which every tile is asked.
const LAST: u8 = 6;

/// What was compared so far, over how many builds, and how many of them with the strips on and off.
pub struct Sums {
    tile: Group,
    sum: Group,
    builds: usize,
    both_ways: usize,
}

impl Sums {
    pub fn new() -> Sums {
        Sums {
            tile: Group::new("tallies, a tile beside the entries at home in it"),
            sum: Group::new("tallies, all tiles of a zoom beside N"),
            builds: 0,
            both_ways: 0,
        }
    }

    /// All tiles of one build; on a plan with the strips, and without.
    pub fn compare(&mut self, build: &Build) {
        let port = match Port::loaded(build) {
            Ok(port) => port,
            Err(difference) => return self.sum.compare(|| build.name(), Some(difference)),
        };
        self.builds += 1;
        self.state(build, &port, &port.state);
        if let Plane::Cartesian(_) = build.state.options.plane {
            let mut other_way = port.state.clone();
            let strips = &mut other_way.options.longitude_strips_only;
            *strips = !*strips;
            self.state(build, &port, &other_way);
            self.both_ways += 1;
        }
    }

    /// All tiles, by the options of this state.
    fn state(&mut self, build: &Build, port: &Port, state: &State) {
        for z in 0..=LAST {
            let homes = homes(port, state, z);
            let mut sum = 0;
            for y in 0..1 << z {
                for x in 0..1 << z {
                    let reply = port_says(state, &port.lent(), z, x, y);
                    let carried = homes.get(&[x, y]).copied().unwrap_or(0);
                    let about = || format!("{}, tile {z} {x} {y}", build.name());
                    self.tile.compare(about, other("tally", Reply { number: 0, carried }, reply));
                    sum += reply.carried;
                }
            }
            let about = || format!("{}, zoom {z}", build.name());
            self.sum.compare(about, other("sum", state.count as usize, sum));
        }
    }

    pub fn told(self) -> Vec<Group> {
        let Sums { tile, sum, builds, both_ways } = self;
        println!(
            "builds whose tallies are added up: {builds}, with the strips on and off: {both_ways}"
        );
        vec![tile, sum]
    }
}

/// The sum of num over the entries at home in each tile that has one.
fn homes(port: &Port, state: &State, z: u8) -> BTreeMap<[u32; 2], usize> {
    let lent = port.lent();
    let mut homes = BTreeMap::new();
    for at in state.positions(state.zoom_used(z)) {
        let tile = [lent.x[at], lent.y[at]].map(|c| home(z, c));
        *homes.entry(tile).or_default() += lent.num[at] as usize;
    }
    homes
}
