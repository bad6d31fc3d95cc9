//! The owners of the lamps, recounted: nums, energies and leaves of every table by its lamps' owners.

use crate::{built, spread, worked, UNIT};
use reachvolem::{Entry, Options, Refused, Supercluster};
use std::collections::BTreeSet;

/// Num and energy of each place, by the lamps' owners.
fn recounted(places: usize, owners: &[u32], energies: &[u64]) -> Vec<(u32, u64)> {
    let mut sums = vec![(0, 0); places];
    for (owner, energy) in owners.iter().zip(energies) {
        let sum = &mut sums[*owner as usize];
        *sum = (sum.0 + 1, sum.1 + energy);
    }
    sums
}

/// Whether an entry's leaves are the lamps that it owns.
fn leaves_are_owned(lamps: &Supercluster, entry: &Entry, owned: &BTreeSet<u32>) {
    let leaves = match entry.is_cluster() {
        true => lamps.get_leaves(entry.id, entry.num, 0).unwrap(),
        false => vec![entry.id],
    };
    assert_eq!(leaves.len(), owned.len());
    assert_eq!(&leaves.into_iter().collect::<BTreeSet<u32>>(), owned);
}

#[test]
fn every_table_recounted() {
    let options = Options { max_zoom: 8, coordinate_system: UNIT, ..Options::default() };
    let lamps = built(options, 600);
    let energies = spread(600).2;
    let mut finer: Option<Vec<u32>> = None;
    let mut lengths = BTreeSet::new();
    for zoom in (0..=9).rev() {
        let (table, owners) = (lamps.table(zoom).unwrap(), lamps.owners(zoom).unwrap());
        assert_eq!(owners.len(), 600);
        let singly: Result<Vec<u32>, Refused> =
            (0..600).map(|lamp| lamps.owner(lamp, zoom)).collect();
        assert_eq!(singly.unwrap(), owners);
        let told: Vec<(u32, u64)> = table.iter().map(|entry| (entry.num, entry.energy)).collect();
        assert_eq!(recounted(table.len(), &owners, &energies), told, "zoom {zoom}");
        let mut owned = vec![BTreeSet::new(); table.len()];
        for (lamp, owner) in owners.iter().enumerate() {
            owned[*owner as usize].insert(lamp as u32);
        }
        table.iter().zip(&owned).for_each(|(entry, owned)| leaves_are_owned(&lamps, entry, owned));
        if let Some(finer) = finer {
            // Lamps of one owner stay together: an owner of the finer table has one owner here.
            let pairs: BTreeSet<(u32, u32)> = finer.into_iter().zip(owners.clone()).collect();
            assert_eq!(pairs.len(), lamps.table(zoom + 1).unwrap().len());
        }
        finer = Some(owners);
        lengths.insert(table.len());
    }
    assert!(lengths.len() > 5, "tables of different lengths: {lengths:?}");
}

#[test]
fn of_the_worked_example() {
    let lamps = worked();
    assert_eq!(lamps.owners(2), Ok(vec![0, 1, 2, 3]));
    assert_eq!(lamps.owners(1), Ok(vec![0, 0, 1, 1]));
    assert_eq!(lamps.owners(0), Ok(vec![0; 4]));
    assert_eq!(lamps.owners(200), lamps.owners(2));
    assert_eq!(lamps.columns().owners, [0, 1, 2, 3, 0, 0, 1, 1, 0, 0, 0, 0]);
    assert_eq!((lamps.owner(3, 2), lamps.owner(3, 1), lamps.owner(3, 0)), (Ok(3), Ok(1), Ok(0)));
    assert_eq!(lamps.owner(3, 200), Ok(3));
}

#[test]
fn of_a_lent_column() {
    let lamps = worked();
    let mut owners = lamps.columns().owners.to_vec();
    // The table of zoom 1 has two entries. Only the lamp that is asked for is looked at.
    owners[7] = 2;
    let asked = |owners: &[u32], lamp, zoom| {
        let columns = reachvolem::lent::Columns { owners, ..lamps.columns() };
        let tables = reachvolem::Tables::lent(lamps.state(), columns);
        (tables.owner(lamp, zoom), tables.owners(zoom).map(|owners| owners[0]))
    };
    let refused = Refused::Spoiled;
    assert_eq!(asked(&owners, 3, 1), (Err(refused), Err(refused)));
    assert_eq!(asked(&owners, 2, 1), (Ok(1), Err(refused)));
    assert_eq!(asked(&owners, 3, 0), (Ok(0), Ok(0)));
    assert_eq!(asked(&owners, 4, 0), (Err(Refused::Lamp), Ok(0)));
    assert_eq!(asked(&owners[..11], 4, 0), (Err(refused), Err(refused)));
    assert_eq!(asked(&[], 0, 2), (Err(refused), Err(refused)));
}

#[test]
fn tallies_come_to_all_lamps() {
    let options = Options { max_zoom: 4, coordinate_system: UNIT, ..Options::default() };
    let lamps = built(options, 300);
    for z in 0..5 {
        let tiles = (0..1 << z).flat_map(|x| (0..1 << z).map(move |y| (x, y)));
        let total: u64 = tiles.map(|(x, y)| lamps.tally(z, x, y).unwrap()).sum();
        assert_eq!(total, 300, "zoom {z}");
    }
}
