//! The owners of SCOPE's worked build: climbed to, and read from the column that keeps them.

mod common;

use common::{single, worked, Build, NONE, WORKED};
use options::{Options, Plane, UNIT};
use questions::{climbed, owner, Refusal};

/// The owners of the four lamps in the tables of the zooms 2, 1 and 0.
const OWNERS: [u32; 12] = [0, 1, 2, 3, 0, 0, 1, 1, 0, 0, 0, 0];

#[test]
fn climbed_to() {
    let build = worked();
    assert_eq!(climbed(&build.state, &build.lent()), Some(OWNERS.to_vec()));
}

#[test]
fn lamps_that_no_cluster_takes_in_own_themselves() {
    let build = single(Plane::Cartesian(UNIT), &[[0.0, 0.5], [1.0, 0.5]]);
    let owners = climbed(&build.state, &build.lent()).expect("tables that can be climbed");
    assert!(owners.chunks(2).all(|part| part == [0, 1]), "{owners:?}");
}

#[test]
fn an_owner_that_no_cluster_took_in_is_found_by_its_own_id() {
    // A lamp by itself, which stands behind the cluster of the two others in each table.
    let finest = [(0.5, 0.5, 0, 5, 1), (0.9, 0.9, 1, NONE, 1), (0.5, 0.5, 2, 5, 1)];
    let coarser = [(0.5, 0.5, 5, NONE, 2), (0.9, 0.9, 1, NONE, 1)];
    let build = Build::of(WORKED, &[&finest, &coarser, &coarser]);
    let owners = climbed(&build.state, &build.lent());
    assert_eq!(owners, Some(vec![0, 1, 2, 0, 1, 0, 0, 1, 0]));
}

#[test]
fn tables_that_cannot_be_climbed() {
    let mut build = worked();
    build.columns.id[5] = 71;
    assert_eq!(climbed(&build.state, &build.lent()), None);
    // Two entries of a table with the same id.
    build.columns.id[5] = 6;
    assert_eq!(climbed(&build.state, &build.lent()), None);
}

#[test]
fn every_lamp_and_zoom() {
    let build = worked();
    for zoom in 0..=255 {
        let part = 2 - usize::from(zoom.min(2));
        for lamp in 0..4 {
            let place = u64::from(OWNERS[4 * part + lamp as usize]);
            assert_eq!(owner(&build.state, &OWNERS, lamp, zoom), Ok(place), "{lamp} {zoom}");
        }
        for lamp in [4, 5, u32::MAX] {
            assert_eq!(owner(&build.state, &OWNERS, lamp, zoom), Err(Refusal::Lamp));
        }
    }
}

#[test]
fn zooms_below_the_first() {
    let mut build = worked();
    build.state.options = Options { min_zoom: 1, ..WORKED };
    assert_eq!(owner(&build.state, &OWNERS[..8], 3, 0), Ok(1));
    assert_eq!(owner(&build.state, &OWNERS[..8], 3, 9), Ok(3));
    assert_eq!(owner(&build.state, &OWNERS[..7], 0, 9), Err(Refusal::Spoiled));
}

#[test]
fn refusals_in_order() {
    let build = worked();
    let asked = |owners: &[u32], lamp, zoom| owner(&build.state, owners, lamp, zoom);
    // The state reaches to seven entries, but there are twelve owners.
    for length in [0, 6, 7, 8, 11] {
        assert_eq!(asked(&OWNERS[..length], 0, 2), Err(Refusal::Spoiled));
        assert_eq!(asked(&OWNERS[..length], 4, 2), Err(Refusal::Spoiled));
    }
    let mut past = OWNERS;
    past[7] = 2;
    assert_eq!(asked(&past, 3, 1), Err(Refusal::Spoiled));
    assert_eq!((asked(&past, 3, 2), asked(&past, 2, 1)), (Ok(3), Ok(1)));
    assert_eq!(asked(&past, 4, 1), Err(Refusal::Lamp));
    let mut state = build.state.clone();
    state.starts[1] = 5;
    assert_eq!(owner(&state, &OWNERS, 4, 2), Err(Refusal::Spoiled));
}
