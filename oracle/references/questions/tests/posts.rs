//! Readings posted to SCOPE's worked build, and to what does not fit together.

mod common;

use common::{single, worked, Build, NONE, WORKED};
use options::{Options, Plane, MOST_ENERGY, UNIT};
use questions::{climbed, post, Refusal, State};

/// The energies of the tables of the zooms 2, 1 and 0, and the owners of the four lamps in them.
const ENERGIES: [u64; 7] = [10, 20, 30, 40, 30, 70, 100];
const OWNERS: [u32; 12] = [0, 1, 2, 3, 0, 0, 1, 1, 0, 0, 0, 0];

/// What a post to a state comes to, and what it leaves.
fn posted(
    state: &State,
    energy: &[u64],
    owners: &[u32],
    lamp: u32,
    figure: u64,
) -> (Result<(), Refusal>, Vec<u64>) {
    let mut energy = energy.to_vec();
    let reply = post(state, &mut energy, owners, lamp, figure);
    (reply, energy)
}

/// That a post of 25 to lamp 1 of the worked build, with these energies and owners, is refused 11 and changes nothing.
fn is_spoiled(energy: &[u64], owners: &[u32]) {
    let state = worked().state;
    let refused = (Err(Refusal::Spoiled), energy.to_vec());
    assert_eq!(posted(&state, energy, owners, 1, 25), refused, "{energy:?} {owners:?}");
}

/// That it is taken, and leaves these.
fn is_taken(energy: &[u64], owners: &[u32], left: &[u64]) {
    let state = worked().state;
    assert_eq!(posted(&state, energy, owners, 1, 25), (Ok(()), left.to_vec()));
}

#[test]
fn the_worked_build() {
    let state = worked().state;
    let mut energy = ENERGIES;
    assert_eq!(post(&state, &mut energy, &OWNERS, 1, 25), Ok(()));
    assert_eq!(energy, [10, 25, 30, 40, 35, 70, 105]);
    assert_eq!(post(&state, &mut energy, &OWNERS, 3, 0), Ok(()));
    assert_eq!(energy, [10, 25, 30, 0, 35, 30, 65]);
    assert_eq!(post(&state, &mut energy, &OWNERS, 0, MOST_ENERGY), Ok(()));
    let more = MOST_ENERGY - 10;
    assert_eq!(energy, [10 + more, 25, 30, 0, 35 + more, 30, 65 + more]);
}

#[test]
fn lamps_by_themselves() {
    let build = single(Plane::Cartesian(UNIT), &[[0.0, 0.5], [1.0, 0.5]]);
    let owners = climbed(&build.state, &build.lent()).expect("tables that can be climbed");
    assert_eq!(posted(&build.state, &[7, 8, 7, 8], &owners, 1, 3), (Ok(()), vec![7, 3, 7, 3]));
}

#[test]
fn a_lamp_that_stands_at_other_places() {
    // A lamp by itself, which stands behind the cluster of the two others in each table.
    let finest = [(0.5, 0.5, 0, 5, 1), (0.9, 0.9, 1, NONE, 1), (0.5, 0.5, 2, 5, 1)];
    let coarser = [(0.5, 0.5, 5, NONE, 2), (0.9, 0.9, 1, NONE, 1)];
    let build = Build::of(WORKED, &[&finest, &coarser, &coarser]);
    let owners = climbed(&build.state, &build.lent()).expect("tables that can be climbed");
    let energy = [1, 2, 4, 5, 2, 5, 2];
    let left = |lamp, figure| posted(&build.state, &energy, &owners, lamp, figure).1;
    assert_eq!(left(1, 9), [1, 9, 4, 5, 9, 5, 9]);
    assert_eq!(left(2, 9), [1, 2, 9, 10, 2, 10, 2]);
}

#[test]
fn refusals_in_order() {
    let state = worked().state;
    let mut past = OWNERS;
    past[5] = 2;
    let asked = |state: &State, energy: &[u64], owners: &[u32], lamp, figure| {
        let (reply, left) = posted(state, energy, owners, lamp, figure);
        assert_eq!(left, energy);
        reply
    };
    for (lamp, figure) in [(1, 25), (4, 25), (1, MOST_ENERGY + 1), (u32::MAX, u64::MAX)] {
        let mut moved = state.clone();
        moved.starts[1] = 5;
        assert_eq!(asked(&moved, &ENERGIES, &OWNERS, lamp, figure), Err(Refusal::Spoiled));
        for length in [0, 6] {
            let short = &ENERGIES[..length];
            assert_eq!(asked(&state, short, &OWNERS, lamp, figure), Err(Refusal::Spoiled));
        }
        for length in [0, 7, 8, 11] {
            let short = &OWNERS[..length];
            assert_eq!(asked(&state, &ENERGIES, short, lamp, figure), Err(Refusal::Spoiled));
        }
    }
    for (lamp, figure) in [(4, 25), (4, MOST_ENERGY + 1), (u32::MAX, u64::MAX)] {
        assert_eq!(asked(&state, &ENERGIES, &past, lamp, figure), Err(Refusal::Lamp));
    }
    for figure in [MOST_ENERGY + 1, 1 << 63, u64::MAX] {
        assert_eq!(asked(&state, &ENERGIES, &past, 1, figure), Err(Refusal::Energy));
    }
    assert_eq!(asked(&state, &ENERGIES, &past, 1, 25), Err(Refusal::Spoiled));
}

#[test]
fn owners_that_do_not_fit() {
    let with = |at: usize, place: u32| {
        let mut owners = OWNERS;
        owners[at] = place;
        owners
    };
    for (at, place) in [(1, 0), (1, 2), (1, 4), (1, u32::MAX), (5, 2), (9, 1), (9, u32::MAX)] {
        is_spoiled(&ENERGIES, &with(at, place));
    }
    // Those of another lamp are not looked at, and another entry of the table has the old figure in it too.
    is_taken(&ENERGIES, &with(0, 9), &[10, 25, 30, 40, 35, 70, 105]);
    is_taken(&ENERGIES, &with(5, 1), &[10, 25, 30, 40, 30, 75, 105]);
}

#[test]
fn energies_that_do_not_fit() {
    let with = |at: usize, sum: u64| {
        let mut energy = ENERGIES;
        energy[at] = sum;
        energy
    };
    for (at, sum) in [(4, 19), (6, 0), (1, 31), (4, u64::MAX), (6, u64::MAX - 4)] {
        is_spoiled(&with(at, sum), &OWNERS);
    }
    is_taken(&with(4, 20), &OWNERS, &[10, 25, 30, 40, 25, 70, 105]);
    is_taken(&with(6, u64::MAX - 5), &OWNERS, &[10, 25, 30, 40, 35, 70, u64::MAX]);
    // The figure so far may be any that the sums have.
    let largest = [10, u64::MAX, 30, 40, u64::MAX, 70, u64::MAX];
    is_taken(&largest, &OWNERS, &[10, 25, 30, 40, 25, 70, 25]);
}

#[test]
fn fewer_tables_and_longer_columns() {
    let mut state = worked().state;
    state.options = Options { min_zoom: 1, ..WORKED };
    let energy = &ENERGIES[..6];
    assert_eq!(posted(&state, energy, &OWNERS[..8], 3, 1).1, [10, 20, 30, 1, 30, 31]);
    assert_eq!(posted(&state, energy, &OWNERS[..7], 3, 1).0, Err(Refusal::Spoiled));
    // Behind the tables stands something else, which stays.
    assert_eq!(posted(&state, &ENERGIES, &OWNERS, 3, 1).1, [10, 20, 30, 1, 30, 31, 100]);
}
