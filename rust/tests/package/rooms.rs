//! Answers longer than the room that a question is first asked with: 10 carries the whole length, and the upper layer
//! asks once more.

use crate::{built, UNIT};
use reachvolem::{lent::Reply, Index, Options};

/// Above what there is room for at first.
const MANY: usize = 1000;

fn options(radius: f64) -> Options {
    // Without strips no entry comes twice in a tile.
    let options = Options { max_zoom: 0, radius, coordinate_system: UNIT, ..Options::default() };
    Options { longitude_strips_only: true, ..options }
}

#[test]
fn ten_carries_the_whole_length() {
    let lamps = built(options(0.0), MANY);
    let all = [0.0, 0.0, 1.0, 1.0];
    let whole = lamps.get_clusters(all, 1).unwrap();
    assert_eq!(whole.len(), MANY);
    let tables = lamps.tables();
    for room in [0, 1, MANY - 1] {
        let mut out = vec![u32::MAX; room];
        let reply = tables.asked().in_box(1, all, &mut out);
        assert_eq!(reply, Reply { number: 10, carried: MANY });
        assert_eq!(out, whole[..room]);
    }
    let mut out = vec![u32::MAX; MANY + 1];
    assert_eq!(tables.asked().in_box(1, all, &mut out), Reply { number: 0, carried: MANY });
    assert_eq!((&out[..MANY], out[MANY]), (&whole[..], u32::MAX));
}

#[test]
fn places_once_each() {
    let lamps = built(options(0.0), MANY);
    let all = [0.0, 0.0, 1.0, 1.0];
    let every: Vec<u32> = (0..MANY as u32).collect();
    let sorted = |mut places: Vec<u32>| {
        places.sort_unstable();
        places
    };
    assert_eq!(sorted(lamps.get_clusters(all, 1).unwrap()), every);
    assert_eq!(sorted(lamps.ring(1, 0.5, 0.5, 2.0).unwrap()), every);
    let found = lamps.get_clusters_within_effort(all, 1, usize::MAX).unwrap();
    assert_eq!((found.tested, found.stopped), (MANY, false));
    assert_eq!(found.places, lamps.get_clusters(all, 1).unwrap());
    let some = lamps.get_clusters_within_effort(all, 1, 300).unwrap();
    assert_eq!((some.tested, some.stopped), (300, true));
    assert_eq!(some.places, found.places[..some.places.len()]);
    let items = lamps.get_tile(0, 0, 0).unwrap();
    assert_eq!(sorted(items.iter().map(|item| item.place).collect()), every);
}

#[test]
fn children_and_leaves() {
    let lamps = built(options(1024.0), MANY);
    let [cluster] = lamps.table(0).unwrap()[..] else { panic!("one cluster") };
    assert_eq!(cluster.num as usize, MANY);
    assert_eq!(lamps.get_children(cluster.id).unwrap().len(), MANY);
    assert_eq!(lamps.get_leaves(cluster.id, u32::MAX, 0).unwrap().len(), MANY);
    assert_eq!(lamps.get_leaves(cluster.id, u32::MAX, 400).unwrap().len(), MANY - 400);
}

#[test]
fn an_index() {
    let (xs, ys, _) = crate::spread(MANY);
    let index = Index::build(8, &xs, &ys).unwrap();
    assert_eq!(index.range([0.0, 0.0, 1.0, 1.0]).unwrap().len(), MANY);
    assert_eq!(index.within(0.5, 0.5, 2.0).unwrap().len(), MANY);
}
