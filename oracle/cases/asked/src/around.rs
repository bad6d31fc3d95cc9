//! The questions to one state and its columns.

use crate::{boxes, clusters, rings, tiles, Scene};
use questions::Question;
use splitmix::Splitmix;

/// Boxes, rings and tiles of every kind, so many times; of a build of more lamps, more often.
const TIMES: usize = 4;
const LARGE: (u32, usize) = (100_000, 40);

/// Builds of at most so many points are asked for all tiles of the zooms up to this one.
const ALL_TILES: [(u32, u32); 2] = [(2, 4), (8, 3)];

/// Many questions: what a whole build is asked.
pub fn many(scene: &Scene, source: &mut Splitmix) -> Vec<Question> {
    let mut all = Vec::new();
    let times = if scene.state.count > LARGE.0 { LARGE.1 } else { TIMES };
    for kind in 0..8 * times {
        all.push(boxes::question(scene, kind, source));
        all.push(rings::question(scene, kind, source));
        all.extend(tiles::questions(scene, kind, source));
    }
    let most = ALL_TILES.iter().find(|(points, _)| scene.state.count <= *points);
    all.extend(most.map(|(_, most)| tiles::all(*most)).unwrap_or_default());
    all.extend(clusters::of_all(scene, source));
    all.extend(clusters::of_none(scene, 12, source));
    all
}

/// Boxes of every kind, so many times.
pub fn all_boxes(scene: &Scene, times: usize, source: &mut Splitmix) -> Vec<Question> {
    (0..8 * times).map(|kind| boxes::question(scene, kind, source)).collect()
}

/// A few questions: what a state that is perhaps spoiled is asked.
pub fn few(scene: &Scene, source: &mut Splitmix) -> Vec<Question> {
    let mut all = Vec::new();
    for _ in 0..2 {
        let kind = source.below(8) as usize;
        all.push(boxes::question(scene, kind, source));
        all.push(rings::question(scene, kind, source));
        all.extend(tiles::questions(scene, kind, source));
        all.extend(clusters::of_any(scene, source));
        all.extend(clusters::of_any(scene, source));
    }
    all
}
