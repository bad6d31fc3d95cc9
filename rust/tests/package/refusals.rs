//! Every refusal that a C name has: its number, what it carries and its sentence.

use crate::{worked, worked_lamps, worked_options};
use reachvolem::{
    lent::{self, Given, Reply, Written, ZOOMS},
    Index, Options, Refused, Supercluster, Tables,
};
use std::error::Error;

/// That a call is refused with this number and this carried, and says so.
fn is_refused<T>(result: Result<T, Refused>, number: u32, carried: usize) {
    let refused = result.err().expect("a refusal");
    assert_eq!((refused.number(), refused.carried()), (number, carried), "{refused:?}");
    let sentence = (&refused as &dyn Error).to_string();
    assert!(sentence.starts_with(&format!("refused {number}: ")), "{sentence}");
    assert!(sentence.len() > "refused 10: ".len() + 15, "{sentence}");
}

fn load(
    options: Options,
    xs: &[f64],
    ys: &[f64],
    energies: &[u64],
) -> Result<Supercluster, Refused> {
    Supercluster::load(options, xs, ys, energies)
}

#[test]
fn of_a_build() {
    let o = worked_options();
    is_refused(load(Options { min_zoom: 2, ..o }, &[0.5], &[0.5], &[1]), 1, 0);
    is_refused(load(Options { max_zoom: u8::MAX, ..o }, &[0.5], &[0.5], &[1]), 1, 0);
    is_refused(load(Options { radius: f64::NAN, ..o }, &[], &[], &[]), 1, 0);
    is_refused(load(o, &[], &[], &[]), 2, 0);
    is_refused(load(o, &[0.5], &[], &[1]), 2, 0);
    is_refused(load(o, &[0.5], &[0.5], &[]), 2, 0);
    is_refused(load(o, &[0.5; 2], &[0.5, -0.1], &[1; 2]), 3, 1);
    is_refused(load(o, &[0.5; 3], &[0.5; 3], &[1, 1, (1 << 40) + 1]), 15, 2);
    let many = vec![0.5; 1_048_577];
    is_refused(load(o, &many, &many, &vec![0; many.len()]), 2, 0);
}

#[test]
fn of_short_columns() {
    let (xs, ys, energies) = worked_lamps();
    let given = Given { xs: &xs, ys: &ys, energies: &energies };
    let needed = lent::entries_needed(&worked_options(), 4);
    assert_eq!(needed, 12);
    let reply = |entries: usize, near: usize, owners: usize| {
        let [mut x, mut y] = [(); 2].map(|()| vec![0.0; entries]);
        let [mut id, mut parent, mut num, mut ids] = [(); 4].map(|()| vec![0; entries]);
        let (mut seen, mut energy) = (vec![0; entries], vec![0; entries]);
        let (mut coords, mut near) = (vec![0.0; 2 * entries], vec![0; near]);
        let mut owners = vec![9; owners];
        let written = Written {
            x: &mut x,
            y: &mut y,
            seen: &mut seen,
            id: &mut id,
            parent: &mut parent,
            num: &mut num,
            energy: &mut energy,
            ids: &mut ids,
            coords: &mut coords,
            near: &mut near,
            owners: &mut owners,
        };
        let (mut starts, mut lens) = ([7; ZOOMS], [7; ZOOMS]);
        let reply = lent::load(&worked_options(), &given, written, &mut starts, &mut lens);
        assert_eq!(reply.number == 0, lens[2] == 4, "a refusal leaves the state as it was");
        if reply.number == 0 {
            assert_eq!(owners[..12], [0, 1, 2, 3, 0, 0, 1, 1, 0, 0, 0, 0]);
            owners.drain(..12);
        }
        assert!(owners.iter().all(|place| *place == 9), "the rest of the owners as it was");
        reply
    };
    assert_eq!(reply(12, 12, 12), Reply { number: 0, carried: 0 });
    assert_eq!(reply(13, 14, 15), Reply { number: 0, carried: 0 });
    is_refused(reply(11, 12, 12).accepted(), 4, 0);
    is_refused(reply(12, 11, 12).accepted(), 4, 0);
    is_refused(reply(12, 12, 11).accepted(), 4, 0);
}

#[test]
fn of_questions() {
    let lamps = worked();
    is_refused(lamps.get_children(7), 5, 0);
    is_refused(lamps.get_leaves(3, 1, 0), 6, 0);
    is_refused(lamps.leaves_page(3, 1, 1), 6, 0);
    assert_eq!(lamps.leaf_pages(7, 1).collect::<Vec<_>>(), [Err(Refused::NoTree)]);
    is_refused(lamps.get_cluster_expansion_zoom(38), 6, 0);
    is_refused(lamps.get_tile(32, 0, 0), 7, 0);
    is_refused(lamps.tally(1, 2, 0), 7, 0);
    is_refused(lamps.get_tile(3, 7, 7), 8, 0);
    is_refused(lamps.get_clusters([f64::NAN, 0.0, 1.0, 1.0], 0), 9, 0);
    is_refused(lamps.ring(0, 0.5, 0.5, -1.0), 9, 0);
    is_refused(lamps.get_clusters_within_effort([0.0, 0.0, f64::INFINITY, 1.0], 0, 9), 9, 0);
    let tables = lamps.tables();
    is_refused(tables.asked().leaves(5, 4, 0, &mut [0; 3]).accepted(), 10, 4);
    is_refused(lamps.entry(0, 1), 6, 0);
    is_refused(lamps.owner(4, 0), 16, 0);
    is_refused(lamps.owner(u32::MAX, 255), 16, 0);
}

#[test]
fn of_longitude_boxes() {
    let lamps = load(Options::default(), &[0.0], &[0.5], &[0]).unwrap();
    is_refused(lamps.get_clusters([-10.0, -0.1, 10.0, 1.0], 0), 9, 0);
    assert_eq!(lamps.get_clusters([170.0, 0.0, 10.0, 1.0], 0), Ok(vec![0]));
}

#[test]
fn of_spoiled_tables() {
    let lamps = worked();
    let mut state = *lamps.state();
    state.starts[1] += 1;
    let spoiled = Tables::lent(&state, lamps.columns());
    is_refused(spoiled.get_clusters([0.0, 0.0, 1.0, 1.0], 2), 11, 0);
    is_refused(spoiled.get_children(5), 11, 0);
    is_refused(spoiled.get_tile(0, 0, 0), 11, 0);
    // Tables that the columns do not reach are not read.
    state.starts = [u32::MAX; ZOOMS];
    let spoiled = Tables::lent(&state, lamps.columns());
    is_refused(spoiled.table(0), 11, 0);
    is_refused(spoiled.entry(0, 0), 11, 0);
    is_refused(spoiled.owners(0), 11, 0);
    is_refused(spoiled.owner(9, 0), 11, 0);
}

#[test]
fn of_an_index() {
    is_refused(Index::build(0, &[0.5], &[0.5]), 1, 0);
    is_refused(Index::build(1, &[], &[]), 2, 0);
    is_refused(Index::build(1, &[0.5, 0.5, 2.0], &[0.5; 3]), 3, 2);
    let index = Index::build(1, &[0.5], &[0.5]).unwrap();
    is_refused(index.range([0.0, 0.0, f64::NAN, 1.0]), 9, 0);
    is_refused(index.walk_within(0.5, 0.5, -1.0), 9, 0);
    let lent = lent::Index { count: 2, ..index.lent() };
    is_refused(lent.range([0.0, 0.0, 1.0, 1.0], &mut [0; 2]).accepted(), 11, 0);
    is_refused(lent::build(1, &[0.5], &[0.5], &mut [], &mut [0.0; 2]).accepted(), 4, 0);
}
