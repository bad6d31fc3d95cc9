//! Tables that no call of this process built: columns written by hand, longer than need be.

use crate::UNIT;
use reachvolem::{
    lent::{Columns, State, PARENT_UNSET, SEEN_UNSET, ZOOMS},
    Options, Refused, Supercluster, Tables, TileItem,
};

/// Two lamps and, at zoom 0, their cluster: id 0 * 32 + 1 + 2. Behind them stands something else.
struct Elsewhere {
    x: [f64; 4],
    y: [f64; 4],
    seen: [u8; 4],
    id: [u32; 4],
    parent: [u32; 4],
    num: [u32; 4],
    energy: [u64; 4],
    ids: [u32; 5],
    coords: [f64; 7],
    owners: [u32; 5],
}

const ELSEWHERE: Elsewhere = Elsewhere {
    x: [0.25, 0.3125, 0.28125, f64::NAN],
    y: [0.5, 0.5, 0.5, f64::NAN],
    seen: [0, 0, SEEN_UNSET, 1],
    id: [0, 1, 3, 99],
    parent: [3, 3, PARENT_UNSET, 0],
    num: [1, 1, 2, 0],
    energy: [5, 6, 11, 0],
    ids: [0, 1, 0, 77, 78],
    coords: [0.25, 0.5, 0.3125, 0.5, 0.28125, 0.5, f64::NAN],
    owners: [0, 1, 0, 0, 77],
};

impl Elsewhere {
    fn columns(&self) -> Columns<'_> {
        let Elsewhere { x, y, seen, id, parent, num, energy, ids, coords, owners } = self;
        Columns { x, y, seen, id, parent, num, energy, ids, coords, owners }
    }
}

fn options() -> Options {
    Options { max_zoom: 0, coordinate_system: UNIT, ..Options::default() }
}

fn state() -> State {
    let (mut starts, mut lens) = ([0; ZOOMS], [0; ZOOMS]);
    (starts[0], lens[0], lens[1]) = (2, 1, 2);
    State { options: options(), count: 2, starts, lens }
}

#[test]
fn answers() {
    let state = state();
    let tables = Tables::lent(&state, ELSEWHERE.columns());
    assert_eq!((tables.count(), tables.options()), (2, &options()));
    assert_eq!(tables.get_children(3), Ok(vec![0, 1]));
    assert_eq!(tables.get_leaves(3, 2, 0), Ok(vec![0, 1]));
    assert_eq!(tables.get_cluster_expansion_zoom(3), Ok(1));
    assert_eq!(tables.get_tile(0, 0, 0), Ok(vec![TileItem { place: 0, x: 144, y: 256 }]));
    assert_eq!(tables.tally(0, 0, 0), Ok(2));
    assert_eq!(tables.get_clusters([0.3, 0.0, 1.0, 1.0], 1), Ok(vec![1]));
    assert_eq!((tables.owners(0), tables.owners(1)), (Ok(vec![0, 0]), Ok(vec![0, 1])));
    assert_eq!((tables.owner(1, 0), tables.owner(1, 9)), (Ok(0), Ok(1)));
    assert_eq!(tables.owner(2, 0), Err(Refused::Lamp));
    let cluster = tables.entry(0, 0).unwrap();
    assert_eq!((cluster.id, cluster.num, cluster.energy), (3, 2, 11));
    assert_eq!((cluster.parent, cluster.seen), (None, None));
    assert_eq!(tables.entry(0, 1), Err(Refused::NoCluster));
}

#[test]
fn they_are_what_a_build_leaves() {
    let built = Supercluster::load(options(), &[0.25, 0.3125], &[0.5; 2], &[5, 6]).unwrap();
    assert_eq!(*built.state(), state());
    let (found, state) = (built.columns(), state());
    let lent = Tables::lent(&state, ELSEWHERE.columns());
    for zoom in [1, 0] {
        assert_eq!(built.table(zoom), lent.table(zoom));
    }
    assert_eq!((found.ids, found.coords), (&ELSEWHERE.ids[..3], &ELSEWHERE.coords[..6]));
    assert_eq!(found.owners, &ELSEWHERE.owners[..4]);
}

#[test]
fn what_does_not_fit_together_is_refused() {
    let state = state();
    let refused = Refused::Spoiled;
    let elsewhere = Elsewhere { ids: [0, 2, 0, 77, 78], ..ELSEWHERE };
    assert_eq!(Tables::lent(&state, elsewhere.columns()).get_children(3), Err(refused));
    let elsewhere = Elsewhere { x: [0.25, 0.3125, 1.5, 0.0], ..ELSEWHERE };
    assert_eq!(Tables::lent(&state, elsewhere.columns()).tally(0, 0, 0), Err(refused));
    let short = Columns { num: &ELSEWHERE.num[..2], ..ELSEWHERE.columns() };
    assert_eq!(Tables::lent(&state, short).get_leaves(3, 1, 0), Err(refused));
    assert_eq!(Tables::lent(&state, short).table(0), Err(refused));
    let elsewhere = Elsewhere { owners: [0, 1, 0, 1, 77], ..ELSEWHERE };
    let tables = Tables::lent(&state, elsewhere.columns());
    assert_eq!((tables.owner(0, 0), tables.owner(1, 0)), (Ok(0), Err(refused)));
    assert_eq!((tables.owners(0), tables.owners(1)), (Err(refused), Ok(vec![0, 1])));
    let short = Columns { owners: &ELSEWHERE.owners[..3], ..ELSEWHERE.columns() };
    assert_eq!(Tables::lent(&state, short).owner(0, 1), Err(refused));
    assert_eq!(Tables::lent(&state, short).owner(2, 1), Err(refused));
    assert_eq!(Tables::lent(&state, short).tally(0, 0, 0), Ok(2));
    let other = State { count: 3, ..state };
    assert_eq!(Tables::lent(&other, ELSEWHERE.columns()).tally(0, 0, 0), Err(refused));
}
