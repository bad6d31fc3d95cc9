//! Tiles: all of a few zooms, those around entries, those at the edges of the map, and numbers that are none.

use crate::Scene;
use questions::Question;
use splitmix::Splitmix;

/// A tile and its tally.
fn both([z, x, y]: [u32; 3]) -> [Question; 2] {
    let z = z as u8;
    [Question::Tile { z, x, y }, Question::Tally { z, x, y }]
}

/// All tiles of the zooms up to this one.
pub fn all(most: u32) -> Vec<Question> {
    let tiles = |z: u32| (0..1 << z).flat_map(move |x| (0..1 << z).map(move |y| [z, x, y]));
    (0..=most).flat_map(tiles).flat_map(both).collect()
}

/// A tile of a kind.
pub fn questions(scene: &Scene, kind: usize, source: &mut Splitmix) -> [Question; 2] {
    let zoom = scene.zoom(source);
    let z = match source.below(3) {
        0 => source.below(32) as u8,
        _ => zoom.min(31),
    };
    let [x, y] = scene.spot(z, source).map(|v| tile_of(z, v));
    let most = ((1_u64 << z) - 1) as u32;
    let z = u32::from(z);
    both(match kind % 8 {
        0..=2 => [z, x, y],
        3 => {
            let beside = |v: u32, source: &mut Splitmix| match source.below(3) {
                0 => v.saturating_sub(1),
                1 => (v + 1).min(most),
                _ => v,
            };
            [z, beside(x, source), beside(y, source)]
        }
        4 => [z, 0, y],
        5 => [z, most, y],
        6 => {
            let any = |source: &mut Splitmix| (source.bits() & u64::from(most)) as u32;
            [z, any(source), any(source)]
        }
        _ => source.pick(&[
            [z, most.wrapping_add(1), y],
            [z, x, most.wrapping_add(1)],
            [z, u32::MAX, u32::MAX],
            [32, x, y],
            [255, 0, 0],
            [z, x, y],
            [0, 0, 0],
        ]),
    })
}

/// The tile of a zoom that holds a coordinate.
fn tile_of(z: u8, v: f64) -> u32 {
    let z2 = (1_u64 << z) as f64;
    (v * z2).floor().clamp(0.0, z2 - 1.0) as u32
}
