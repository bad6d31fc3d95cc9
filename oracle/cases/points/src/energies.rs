//! Energies of points.

use options::MOST_ENERGY;
use splitmix::Splitmix;

/// How many kinds there are.
const KINDS: u64 = 8;

/// Energies of these points, by a generator that the points begin: no other number depends on them.
pub fn energies(xs: &[f64], ys: &[f64]) -> Vec<u64> {
    let mix = |seed: u64, v: &f64| seed.rotate_left(7) ^ v.to_bits();
    let mut source = Splitmix(xs.iter().chain(ys).fold(xs.len() as u64, mix));
    let kind = source.below(KINDS);
    (0..xs.len()).map(|place| energy(kind, place, &mut source)).collect()
}

/// An energy of a kind: none, the most, either of these, a bit of its own, as many digits as the lister takes, any.
fn energy(kind: u64, place: usize, source: &mut Splitmix) -> u64 {
    match kind {
        0 => 0,
        1 => MOST_ENERGY,
        2 => source.pick(&[0, MOST_ENERGY]),
        3 => 1 << (place % 41),
        4 => source.below(10_000_000),
        _ => source.below(MOST_ENERGY + 1),
    }
}
