//! SCOPE's worked example. Its table lines are read from docs/SCOPE.md.

use crate::{worked, worked_lamps, worked_options, UNIT};
use reachvolem::{Entry, Found, Options, Refused, Supercluster, TileItem};
use std::fs;

/// The lines of the worked example in docs/SCOPE.md.
fn lines() -> Vec<String> {
    let scope = concat!(env!("CARGO_MANIFEST_DIR"), "/../docs/SCOPE.md");
    let scope = fs::read_to_string(scope).expect("docs/SCOPE.md");
    let after = scope.split("The lister prints:").nth(1).expect("the worked example");
    let lines = after.lines().skip_while(|line| line.trim().is_empty());
    lines.take_while(|line| line.starts_with("    ")).map(|line| line.trim().to_string()).collect()
}

/// An entry as the lister prints it.
fn line(zoom: u8, place: usize, entry: &Entry) -> String {
    fn or_unset<T: ToString>(number: Option<T>) -> String {
        number.map_or("-".to_string(), |number| number.to_string())
    }
    let Entry { x, y, seen, id, parent, num, energy } = *entry;
    let (x, y) = (x.to_bits(), y.to_bits());
    let (seen, parent) = (or_unset(seen), or_unset(parent));
    format!("{zoom} {place} {x:016x} {y:016x} {seen} {id} {parent} {num} {energy}")
}

#[test]
fn tables() {
    let lamps = worked();
    let mut found = Vec::new();
    for zoom in [2, 1, 0] {
        let table = lamps.table(zoom).unwrap();
        found.extend(table.iter().enumerate().map(|(place, entry)| line(zoom, place, entry)));
        let places = 0..table.len() as u32;
        let entries = places.map(|place| lamps.entry(zoom, place)).collect::<Result<Vec<_>, _>>();
        assert_eq!(entries, Ok(table));
    }
    assert_eq!(found.len(), 7);
    assert_eq!(found, lines());
}

#[test]
fn ids() {
    let lamps = worked();
    let origin = |id| (lamps.origin_place(id), lamps.origin_zoom(id));
    assert_eq!(origin(70), (Some(2), Some(2)));
    assert_eq!(origin(5), (Some(0), Some(1)));
    assert_eq!(origin(3), (None, None));
}

#[test]
fn children_and_leaves() {
    let lamps = worked();
    assert_eq!(lamps.get_children(5), Ok(vec![0, 1]));
    assert_eq!(lamps.get_leaves(5, 10, 0), Ok(vec![0, 1, 2, 3]));
    assert_eq!(lamps.get_leaves(5, 3, 1), Ok(vec![1, 2, 3]));
    for offset in [0, 1] {
        assert_eq!(lamps.get_leaves(5, 0, offset), Ok(vec![]));
    }
    let pages = [0, 3, 6].map(|offset| lamps.get_leaves(5, 3, offset).unwrap());
    assert_eq!(pages, [vec![0, 1, 2], vec![3], vec![]]);
    assert_eq!([5, 6].map(|id| lamps.get_cluster_expansion_zoom(id)), [Ok(1), Ok(2)]);
    for (ids, refused) in [(&[3, 4, 134][..], Refused::NoCluster), (&[7], Refused::NoTree)] {
        for id in ids {
            assert_eq!(lamps.get_children(*id), Err(refused));
            assert_eq!(lamps.get_leaves(*id, 10, 0), Err(refused));
            assert_eq!(lamps.get_cluster_expansion_zoom(*id), Err(refused));
        }
    }
}

#[test]
fn tiles_boxes_and_rings() {
    let lamps = worked();
    assert_eq!(lamps.get_tile(0, 0, 0), Ok(vec![TileItem { place: 0, x: 176, y: 256 }]));
    assert_eq!(lamps.tally(0, 0, 0), Ok(4));
    assert_eq!(lamps.get_clusters([0.3, 0.0, 0.45, 1.0], 2), Ok(vec![1, 2, 3]));
    assert_eq!(lamps.ring(2, 0.25, 0.5, 0.0625), Ok(vec![0, 1]));
    assert_eq!([0, 1, 2, 9].map(|zoom| lamps.zoom_used(zoom)), [0, 1, 2, 2]);
}

#[test]
fn other_options() {
    let (xs, ys, energies) = worked_lamps();
    let load = |options| Supercluster::load(options, &xs, &ys, &energies);
    assert!(load(Options { max_zoom: 30, ..worked_options() }).is_ok());
    assert_eq!(load(Options { max_zoom: 31, ..worked_options() }).unwrap_err(), Refused::Options);
    assert_eq!(load(Options { node_size: 0, ..worked_options() }).unwrap_err(), Refused::Options);
    let apart = load(Options { min_points: 3, ..worked_options() }).unwrap();
    for zoom in 0..=2 {
        let table = apart.table(zoom).unwrap();
        let ids: Vec<(u32, u32)> = table.iter().map(|entry| (entry.id, entry.num)).collect();
        assert_eq!(ids, [(0, 1), (1, 1), (2, 1), (3, 1)]);
    }
}

#[test]
fn strips() {
    let tile = |longitude_strips_only, z| {
        let options = Options { longitude_strips_only, ..worked_options() };
        let lamp = Supercluster::load(options, &[1.0], &[0.5], &[0]).unwrap();
        let items = lamp.get_tile(z, 0, 0)?;
        Ok(items.iter().map(|item| (item.x, item.y)).collect::<Vec<_>>())
    };
    assert_eq!(tile(false, 0), Ok(vec![(512, 256), (0, 256)]));
    assert_eq!(tile(true, 0), Ok(vec![(512, 256)]));
    assert_eq!(tile(false, 1), Ok(vec![(0, 512)]));
    assert_eq!(tile(true, 1), Err(Refused::EmptyTile));
    let options = Options { coordinate_system: UNIT, ..worked_options() };
    let both = Supercluster::load(options, &[0.0, 1.0], &[0.5; 2], &[0; 2]).unwrap();
    let items = both.get_tile(0, 0, 0).unwrap();
    let items: Vec<_> = items.iter().map(|item| (item.place, item.x, item.y)).collect();
    assert_eq!(items, [(0, 0, 256), (1, 512, 256), (1, 0, 256), (0, 512, 256)]);
}

#[test]
fn effort() {
    let options = Options { node_size: 1, ..Options::default() };
    let longitudes = [-180.0, -170.0, 0.0, 170.0, 180.0];
    let lamps = Supercluster::load(options, &longitudes, &[0.5; 5], &[0; 5]).unwrap();
    let bbox = [-180.00000000000006, 0.0, -170.0, 1.0];
    let within = |allowance| lamps.get_clusters_within_effort(bbox, 17, allowance).unwrap();
    let found =
        |places: &[u32], tested, stopped| Found { places: places.to_vec(), tested, stopped };
    assert_eq!(within(6), found(&[2, 3, 4, 0, 1], 6, true));
    assert_eq!(within(7), found(&[2, 3, 4, 0, 1, 0], 7, true));
    assert_eq!(within(8), found(&[2, 3, 4, 0, 1, 0, 1], 8, false));
    assert_eq!(within(usize::MAX), within(8));
    let tables = lamps.tables();
    let told = tables.asked().box_effort(17, bbox, 8, &mut [0; 6]);
    assert_eq!((told.reply.number, told.reply.carried), (10, 7));
    assert_eq!((told.tested, told.stopped), (8, false));
}
