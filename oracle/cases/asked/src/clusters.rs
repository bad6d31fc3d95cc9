//! Questions by an id: children, leaves, expansion zoom; of clusters, and of ids that are none.

use crate::Scene;
use questions::{encoded, Question, ZOOMS};
use splitmix::Splitmix;
use std::collections::BTreeMap;

/// How many clusters of a build are asked for their leaves at every limit and offset.
const THOROUGH: usize = 5;

/// A build with more clusters than this is asked for so many, by chance.
const MOST: usize = 1_000;

/// Every cluster of the tables with its num.
fn clusters(scene: &Scene) -> BTreeMap<u32, u32> {
    let entries = scene.lent.id.iter().zip(scene.lent.num);
    entries.filter(|(_, num)| **num > 1).map(|(id, num)| (*id, *num)).collect()
}

/// Every cluster's children and expansion zoom, and its leaves at some limits and offsets; those of a few at
/// many.
pub fn of_all(scene: &Scene, source: &mut Splitmix) -> Vec<Question> {
    let mut clusters: Vec<(u32, u32)> = clusters(scene).into_iter().collect();
    if clusters.len() > MOST {
        clusters = (0..MOST).map(|_| source.pick(&clusters)).collect();
    }
    let mut all = Vec::new();
    for (id, num) in &clusters {
        let (id, num) = (*id, *num);
        all.extend([Question::Children { id }, Question::ExpansionZoom { id }]);
        all.extend([(); 2].map(|()| leaves(id, num, source)));
    }
    for _ in 0..clusters.len().min(THOROUGH) {
        let (id, num) = source.pick(&clusters);
        for limit in bounds(num) {
            all.extend(bounds(num).map(|offset| Question::Leaves { id, limit, offset }));
        }
    }
    all
}

/// None, some, all but one, all, one more, no end.
fn bounds(num: u32) -> [u32; 7] {
    [0, 1, num / 2, num.wrapping_sub(1), num, num.saturating_add(1), u32::MAX]
}

/// Leaves of a cluster with this num.
fn leaves(id: u32, num: u32, source: &mut Splitmix) -> Question {
    let below = u64::from(num) + 2;
    let mut number = |bounds: &[u32]| match source.below(2) {
        0 => source.below(below) as u32,
        _ => source.pick(bounds),
    };
    let (limit, offset) = (number(&bounds(num)), number(&bounds(num)));
    Question::Leaves { id, limit, offset }
}

/// The three questions by one id, perhaps that of a cluster.
pub fn of_any(scene: &Scene, source: &mut Splitmix) -> [Question; 3] {
    let known: Vec<u32> = clusters(scene).into_keys().collect();
    let parents: Vec<u32> =
        scene.lent.parent.iter().copied().filter(|id| *id != u32::MAX).collect();
    let id = match source.below(4) {
        0 if !known.is_empty() => source.pick(&known),
        1 if !parents.is_empty() => source.pick(&parents),
        2 => made(scene, source),
        _ => no_cluster(scene, &known, source),
    };
    let leaves = leaves(id, scene.state.count.min(50), source);
    [Question::Children { id }, leaves, Question::ExpansionZoom { id }]
}

/// An id with a table that is built and an origin in it or just past it.
fn made(scene: &Scene, source: &mut Splitmix) -> u32 {
    let table = scene.state.zoom_used(source.below(ZOOMS as u64) as u8).min(ZOOMS - 1);
    let length = u64::from(scene.state.lens[table]).min(1 << 21);
    encoded(scene.state.count, source.below(length + 1) as usize, table)
}

/// An id that is perhaps none: below N, of any table, beside a cluster's, past the table, the largest.
pub fn no_cluster(scene: &Scene, known: &[u32], source: &mut Splitmix) -> u32 {
    let count = scene.state.count;
    let near = if known.is_empty() { count } else { source.pick(known) };
    match source.below(8) {
        0 => source.pick(&[0, count.wrapping_sub(1), count / 2]),
        1 => count.wrapping_add(source.below(ZOOMS as u64) as u32),
        2 => near.wrapping_add(source.pick(&[1, 2, 30, 31, u32::MAX])),
        3 => near.wrapping_add(32),
        4 => near.wrapping_sub(32),
        5 => {
            let table = source.below(ZOOMS as u64) as usize;
            let length = scene.state.lens[table].min(1 << 21) as usize;
            encoded(count, length.saturating_sub(source.below(2) as usize), table)
        }
        6 => count.wrapping_add(source.below(1 << 12) as u32),
        _ => source.pick(&[u32::MAX, 1 << 31, count.wrapping_mul(32), count.wrapping_add(1 << 25)]),
    }
}

/// The three questions by ids that are perhaps none.
pub fn of_none(scene: &Scene, times: usize, source: &mut Splitmix) -> Vec<Question> {
    let known: Vec<u32> = clusters(scene).into_keys().collect();
    let mut all = Vec::new();
    for _ in 0..times {
        let id = no_cluster(scene, &known, source);
        all.push(Question::Children { id });
        all.push(leaves(id, 3, source));
        all.push(Question::ExpansionZoom { id });
    }
    all
}
