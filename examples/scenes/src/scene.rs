//! Lamps of a place, and how they are to be clustered.

use splitmix::Splitmix;
use std::fmt::Write;

/// A place in the unit square, y pointing down the map.
pub type Place = [f64; 2];

/// How far a lamp stands off its line, either way.
const OFF: f64 = 0.0012;

/// The entries that the lister has room for.
const ROOM: usize = 1_152;

/// What lamps use in a night, in watt-hours: most of them from here to there, one in so many is an old one and uses
/// more, and one in so many is out.
const USE: [u64; 2] = [280, 720];
const OLD: (u64, u64) = (9, 1_500);
const OUT: u64 = 40;

/// Lamps, and the zooms and the radius of their clusters; the other options are the usual ones.
pub struct Scene {
    pub max_zoom: usize,
    pub radius: u32,
    pub lamps: Vec<Place>,
}

impl Scene {
    /// The input of the lister.
    pub fn text(&self) -> String {
        let Scene { max_zoom, radius, lamps } = self;
        assert!((max_zoom + 2) * lamps.len() <= ROOM, "{} lamps have no room", lamps.len());
        let mut text = format!(
            "min_zoom=0\nmax_zoom={max_zoom}\nmin_points=2\nradius={radius}\nextent=512\n\
             node_size=64\ncount={}\n",
            lamps.len()
        );
        let mut source = Splitmix(lamps.len() as u64);
        for [x, y] in lamps.iter().map(|lamp| lamp.map(parts)) {
            let energy = energy(&mut source);
            writeln!(text, "x={x}\ny={y}\nwh={energy}").expect("a string takes any line");
        }
        text
    }
}

/// What a lamp used.
fn energy(source: &mut Splitmix) -> u64 {
    let (one_in, more) = OLD;
    let usual = USE[0] + source.below(USE[1] - USE[0]);
    let (is_out, is_old) = (source.below(OUT) == 0, source.below(one_in) == 0);
    match (is_out, is_old) {
        (true, _) => 0,
        (false, true) => usual + more,
        (false, false) => usual,
    }
}

/// A coordinate in 65,536ths.
fn parts(v: f64) -> u32 {
    assert!((0.0..=1.0).contains(&v), "{v} is outside the map");
    (v * 65_536.0).round() as u32
}

/// Lamps as crews put them up: not quite where the plan has them.
pub fn put_up(plan: Vec<Place>, source: &mut Splitmix) -> Vec<Place> {
    let mut off = |v: f64| v + OFF * (2.0 * source.unit() - 1.0);
    plan.into_iter().map(|place| place.map(&mut off)).collect()
}
