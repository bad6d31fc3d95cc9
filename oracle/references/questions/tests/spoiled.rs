//! What is left where there is no room, and of states and columns that no build made.

mod common;

use columns::NAMES;
use common::{single, worked, Build, NONE, WORKED};
use options::{Options, Plane, UNIT};
use questions::{
    children, expansion_zoom, leaves, tile, Item, Lent, Out, Outcome, Question, Refusal, Reply,
};

const SPOILED: Reply = Reply { number: 11, carried: 0 };

/// One question of each kind.
const EACH: [Question; 7] = [
    Question::Box { zoom: 2, corners: [0.0, 0.0, 1.0, 1.0] },
    Question::Ring { zoom: 2, circle: [0.5, 0.5, 1.0] },
    Question::Children { id: 5 },
    Question::Leaves { id: 5, limit: 10, offset: 0 },
    Question::ExpansionZoom { id: 5 },
    Question::Tile { z: 2, x: 1, y: 2 },
    Question::Tally { z: 2, x: 1, y: 2 },
];

/// The reply of a question with room for everything.
fn reply(build: &Build, lent: &Lent, question: &Question) -> Reply {
    let (mut places, mut x, mut y) = ([0; 99], [0; 99], [0; 99]);
    let mut out = Out { places: &mut places, x: &mut x, y: &mut y };
    question.answered(&build.state, lent).told(&mut out)
}

fn numbers(build: &Build, lent: &Lent) -> [u32; 7] {
    EACH.map(|question| reply(build, lent, &question).number)
}

#[test]
fn the_first_items_where_there_is_no_room() {
    let build = worked();
    let mut out = [9; 3];
    let four = leaves(&build.state, &build.lent(), 5, 10, 0).told(&mut out);
    assert_eq!((four, out), (Reply { number: 10, carried: 4 }, [0, 1, 2]));
    let mut out = [9; 1];
    let two = children(&build.state, &build.lent(), 5).told(&mut out);
    assert_eq!((two, out), (Reply { number: 10, carried: 2 }, [0]));
}

#[test]
fn the_shortest_column_of_a_tile_is_the_room() {
    let build = single(Plane::Cartesian(UNIT), &[[1.0, 0.5]]);
    let asked = Question::Tile { z: 0, x: 0, y: 0 }.answered(&build.state, &build.lent());
    let (mut places, mut x, mut y) = ([9; 3], [9; 1], [9; 2]);
    let reply = asked.told(&mut Out { places: &mut places, x: &mut x, y: &mut y });
    assert_eq!(reply, Reply { number: 10, carried: 2 });
    assert_eq!((places, x, y), ([0, 9, 9], [512], [256, 9]));
}

#[test]
fn states_out_of_bounds() {
    let changes: [fn(&mut Build); 14] = [
        |build| build.state.count = 0,
        |build| build.state.count = 3,
        |build| build.state.count = 5,
        |build| build.state.count = 1_048_577,
        |build| build.state.lens[2] = 3,
        |build| build.state.lens[1] = 0,
        |build| build.state.lens[0] = 5,
        |build| build.state.lens[0] = 2,
        |build| build.state.starts[2] = 1,
        |build| build.state.starts[1] = 3,
        |build| build.state.starts[0] = u32::MAX,
        |build| build.state.options.max_zoom = 31,
        |build| build.state.options.radius = f64::NAN,
        |build| build.state.options.node_size = 0,
    ];
    for (number, change) in changes.iter().enumerate() {
        let mut build = worked();
        change(&mut build);
        assert_eq!(numbers(&build, &build.lent()), [11; 7], "change {number}");
    }
    // The zooms that are not built do not count.
    let mut build = worked();
    (build.state.starts[3], build.state.lens[31]) = (7, u32::MAX);
    assert_eq!(numbers(&build, &build.lent()), [0; 7]);
}

#[test]
fn columns_one_short() {
    let build = worked();
    let lent = build.lent();
    let whole = lent.lengths();
    for (at, name) in NAMES.iter().enumerate() {
        let mut short = whole;
        short[at] -= 1;
        let expected = match *name {
            "ids" | "coords" => [11; 7],
            _ => [0, 0, 11, 11, 11, 11, 11],
        };
        assert_eq!(numbers(&build, &lent.fronts(short)), expected, "{name}");
    }
    // A box and a ring are lent no more than ids and coordinates.
    let Lent { ids, coords, .. } = lent;
    let index = Lent { ids, coords, ..lent.fronts([0; NAMES.len()]) };
    assert_eq!(numbers(&build, &index)[..2], [0, 0]);
}

#[test]
fn a_slot_past_the_table() {
    let mut build = worked();
    build.columns.ids[2] = 4;
    assert_eq!(numbers(&build, &build.lent()), [11, 11, 0, 11, 0, 11, 11]);
    let mut out = [9; 4];
    let asked = EACH[0].answered(&build.state, &build.lent());
    assert_eq!(asked.told(&mut Out { places: &mut out, x: &mut [], y: &mut [] }), SPOILED);
    assert_eq!(out, [0, 1, 9, 9]);
    // A walk that stops before it does not come to it.
    assert_eq!(leaves(&build.state, &build.lent(), 5, 2, 0).told(&mut out), Reply::done(2));
    assert_eq!(leaves(&build.state, &build.lent(), 5, 3, 0).told(&mut out), SPOILED);
}

#[test]
fn limit_0_searches_for_all_children_and_enters_none() {
    let limit_0 = |build: &Build, id, offset| {
        let mut out = [9; 4];
        let reply = leaves(&build.state, &build.lent(), id, 0, offset).told(&mut out);
        assert_eq!(out, [9; 4]);
        reply
    };
    // A slot past the table, after a child was found: in the cluster's own table, and further down.
    let mut build = worked();
    build.columns.ids[5] = 2;
    assert_eq!(leaves(&build.state, &build.lent(), 5, 1, 0).items, [0]);
    let mut further = worked();
    further.columns.ids[2] = 4;
    for offset in [0, 1, u32::MAX] {
        assert_eq!(limit_0(&build, 5, offset), SPOILED);
        assert_eq!(limit_0(&further, 5, offset), Reply::done(0));
    }
    // A child that cannot be entered.
    let mut build = worked();
    build.columns.id[4] = 3;
    assert_eq!(limit_0(&build, 5, 0), Reply::done(0));
    assert_eq!(leaves(&build.state, &build.lent(), 5, 1, 0).reply(4), SPOILED);
    // No children, and a slot past the table where there are none.
    assert_eq!(limit_0(&worked(), 38, 0), Reply { number: 6, carried: 0 });
    let mut build = worked();
    build.columns.ids[1] = 4;
    assert_eq!(limit_0(&build, 38, 0), SPOILED);
}

#[test]
fn a_child_that_is_no_cluster() {
    // Below N; a table that is not larger; one that is not built; an origin past its table; no children.
    for id in [3, 5, 7, 134, 38] {
        let mut build = worked();
        build.columns.id[5] = id;
        let mut out = [9; 4];
        assert_eq!(leaves(&build.state, &build.lent(), 5, 10, 0).told(&mut out), SPOILED, "{id}");
        assert_eq!(out, [0, 1, 9, 9], "{id}");
        assert_eq!(leaves(&build.state, &build.lent(), 5, 2, 0).told(&mut out), Reply::done(2));
        assert_eq!(expansion_zoom(&build.state, &build.lent(), 5), Ok(1));
    }
}

#[test]
fn a_lamp_after_n_are_listed() {
    let finest = [(0.25, 0.5, 0, 5, 1), (0.3125, 0.5, 1, 5, 1), (0.5, 0.5, 2, NONE, 1)];
    let middle = [(0.28125, 0.5, 5, 4, 2), (0.375, 0.5, 2, 4, 1)];
    let mut build = Build::of(WORKED, &[&finest, &middle, &[(0.3125, 0.5, 4, NONE, 3)]]);
    assert_eq!(leaves(&build.state, &build.lent(), 4, 9, 0).items, [0, 1, 2]);
    build.columns.ids[4] = 0;
    let mut out = [9; 4];
    assert_eq!(leaves(&build.state, &build.lent(), 4, 9, 0).told(&mut out), SPOILED);
    assert_eq!(out, [0, 1, 0, 9]);
    assert_eq!(leaves(&build.state, &build.lent(), 4, 9, 1).told(&mut out), Reply::done(3));
}

/// Two lamps in cluster 5, which is the sole child of 4, which is the sole child of 3.
fn chain() -> Build {
    let options = Options { max_zoom: 2, ..WORKED };
    let finest = [(0.25, 0.5, 0, 5, 1), (0.25, 0.5, 1, 5, 1)];
    let (second, first) = ([(0.25, 0.5, 5, 4, 2)], [(0.25, 0.5, 4, 3, 2)]);
    Build::of(options, &[&finest, &second, &first, &[(0.25, 0.5, 3, NONE, 2)]])
}

#[test]
fn expansion_goes_on_with_a_sole_cluster() {
    let mut build = chain();
    assert_eq!(expansion_zoom(&build.state, &build.lent(), 3), Ok(3));
    assert_eq!(expansion_zoom(&build.state, &build.lent(), 4), Ok(3));
    // A sole child that is a lamp ends it.
    build.columns.num[2] = 1;
    assert_eq!(expansion_zoom(&build.state, &build.lent(), 3), Ok(2));
    // Nothing is entered after max_zoom + 1.
    let mut build = chain();
    (build.columns.parent[1], build.columns.num[0], build.columns.id[0]) = (NONE, 2, 0);
    assert_eq!(expansion_zoom(&build.state, &build.lent(), 3), Ok(3));
    // One without children further down.
    build.columns.parent[0] = NONE;
    assert_eq!(expansion_zoom(&build.state, &build.lent(), 3), Err(Refusal::Spoiled));
    assert_eq!(expansion_zoom(&build.state, &build.lent(), 5), Err(Refusal::NoCluster));
}

#[test]
fn a_tile_stops_at_an_entry_outside() {
    for wrong in [f64::NAN, 1.5, -f64::MIN_POSITIVE, f64::INFINITY] {
        let mut build = worked();
        build.columns.y[1] = wrong;
        let Outcome::Tile(answer) = EACH[5].answered(&build.state, &build.lent()) else {
            panic!("a tile");
        };
        assert_eq!(answer.reply(9), SPOILED);
        assert_eq!(answer.items, [Item { place: 0, x: 0, y: 0 }]);
        assert_eq!(reply(&build, &build.lent(), &EACH[6]), SPOILED);
    }
}

#[test]
fn what_lies_in_a_strip_alone_is_not_come_to_without_strips() {
    let mut build = single(Plane::Cartesian(UNIT), &[[0.25, 0.5], [1.0, 0.5]]);
    // The table of zoom 1 comes first: its second slot names no place.
    build.columns.ids[1] = 2;
    assert_eq!(tile(&build.state, &build.lent(), 1, 0, 0).reply(9), SPOILED);
    build.state.options.longitude_strips_only = true;
    let answer = tile(&build.state, &build.lent(), 1, 0, 0);
    assert_eq!(answer.items, [Item { place: 0, x: 256, y: 512 }]);
    assert_eq!(answer.reply(9), Reply::done(1));
    // In the tile's own range it is.
    assert_eq!(tile(&build.state, &build.lent(), 1, 1, 0).reply(9), SPOILED);
}

#[test]
fn an_origin_that_is_not_finite_finds_nothing() {
    let mut build = worked();
    build.columns.x[4] = f64::NAN;
    assert_eq!(children(&build.state, &build.lent(), 5).reply(9).number, 6);
    build.columns.x[4] = f64::INFINITY;
    assert_eq!(children(&build.state, &build.lent(), 5).reply(9).number, 6);
}
