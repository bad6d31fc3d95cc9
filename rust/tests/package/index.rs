//! The index alone, beside a look at every point.

use crate::spread;
use reachvolem::Index;

/// Where to look, and how far.
const CIRCLES: [[f64; 3]; 5] =
    [[0.5, 0.5, 0.0], [0.5, 0.5, 0.1], [0.1, 0.9, 0.3], [2.0, 2.0, 0.5], [0.3, 0.3, 2.0]];

fn sorted(mut places: Vec<u32>) -> Vec<u32> {
    places.sort_unstable();
    places
}

/// The places of the points that pass.
fn passing(xs: &[f64], ys: &[f64], passes: impl Fn(f64, f64) -> bool) -> Vec<u32> {
    let points = xs.iter().zip(ys).zip(0..);
    points.filter(|((x, y), _)| passes(**x, **y)).map(|(_, place)| place).collect()
}

#[test]
fn searches_and_walks() {
    let (xs, ys, _) = spread(400);
    let mut most = 0;
    for node_size in [1, 3, 64, 65_535] {
        let index = Index::build(node_size, &xs, &ys).unwrap();
        for [x, y, radius] in CIRCLES {
            let bbox = [x - radius, y - radius, x + radius, y + radius];
            let in_box = passing(&xs, &ys, |px, py| {
                bbox[0] <= px && px <= bbox[2] && bbox[1] <= py && py <= bbox[3]
            });
            let near = passing(&xs, &ys, |px, py| {
                (px - x) * (px - x) + (py - y) * (py - y) <= radius * radius
            });
            let range = index.range(bbox).unwrap();
            let within = index.within(x, y, radius).unwrap();
            assert_eq!(index.walk_range(bbox).unwrap().collect::<Vec<_>>(), range);
            assert_eq!(index.walk_within(x, y, radius).unwrap().collect::<Vec<_>>(), within);
            most = most.max(within.len());
            assert_eq!((sorted(range), sorted(within)), (in_box, near));
        }
    }
    assert_eq!(most, 400);
}

#[test]
fn slots_of_the_layer_below() {
    let index = Index::build(2, &[0.9, 0.1, 0.5, 0.7], &[0.5; 4]).unwrap();
    let lent = index.lent();
    let mut slots = vec![lent.within_first([0.8, 0.5, 0.15]).carried];
    while let Some(slot) = slots.last().filter(|slot| **slot != reachvolem::lent::NO_SLOT) {
        slots.push(lent.within_after([0.8, 0.5, 0.15], *slot).carried);
    }
    slots.pop();
    let places: Vec<u32> = slots.iter().map(|slot| lent.ids[*slot]).collect();
    assert_eq!(places, index.within(0.8, 0.5, 0.15).unwrap());
    assert_eq!(sorted(places), [0, 3]);
}
