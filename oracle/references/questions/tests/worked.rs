//! SCOPE's worked example, and answers that its text fixes.

mod common;

use common::{single, worked, Build};
use options::{Options, Plane, UNIT};
use questions::{
    children, decoded, effort_box, expansion_zoom, in_box, leaves, ring, tally, tile, Effort,
    EffortReply, Item, Reply,
};

fn refused(number: u32) -> Reply {
    Reply { number, carried: 0 }
}

/// What a question that is not refused lists.
fn listed<T: Copy>(answer: questions::Answer<T>) -> Vec<T> {
    assert_eq!(answer.refusal, None);
    answer.items
}

fn items(all: &[(u32, i64, i64)]) -> Vec<Item> {
    all.iter().map(|&(place, x, y)| Item { place, x, y }).collect()
}

#[test]
fn ids() {
    assert_eq!(decoded(4, 70), Some((2, 2)));
    assert_eq!(decoded(4, 5), Some((0, 1)));
}

#[test]
fn children_of_5() {
    let build = worked();
    assert_eq!(listed(children(&build.state, &build.lent(), 5)), [0, 1]);
    assert_eq!(listed(children(&build.state, &build.lent(), 6)), [0, 1]);
    assert_eq!(listed(children(&build.state, &build.lent(), 70)), [2, 3]);
}

#[test]
fn leaves_of_5() {
    let build = worked();
    let of_5 = |limit, offset| listed(leaves(&build.state, &build.lent(), 5, limit, offset));
    assert_eq!(of_5(10, 0), [0, 1, 2, 3]);
    assert_eq!(of_5(3, 1), [1, 2, 3]);
    assert_eq!(of_5(4, 0), [0, 1, 2, 3]);
    // #101: limit 0 lists nothing, at every offset.
    for offset in [0, 1, 4, u32::MAX] {
        assert!(of_5(0, offset).is_empty());
    }
    assert_eq!(of_5(1, 2), [2]);
    assert!(of_5(10, 4).is_empty());
    assert_eq!(of_5(u32::MAX, 3), [3]);
}

#[test]
fn expansion_zooms() {
    let build = worked();
    assert_eq!(expansion_zoom(&build.state, &build.lent(), 5), Ok(1));
    assert_eq!(expansion_zoom(&build.state, &build.lent(), 6), Ok(2));
}

#[test]
fn refused_ids() {
    let build = worked();
    // SCOPE's four lines, and the id 38, whose table and origin are built, and which has no children.
    for (id, number) in [(3, 6), (4, 6), (7, 5), (134, 6), (38, 6)] {
        let mut out = [9; 4];
        assert_eq!(
            children(&build.state, &build.lent(), id).told(&mut out),
            refused(number),
            "{id}"
        );
        for limit in [10, 0] {
            let of_id = leaves(&build.state, &build.lent(), id, limit, 0);
            assert_eq!(of_id.told(&mut out), refused(number), "{id} at limit {limit}");
        }
        let expanded = expansion_zoom(&build.state, &build.lent(), id);
        assert_eq!(expanded.map_err(|refusal| refusal as u32), Err(number), "{id}");
        assert_eq!(out, [9; 4]);
    }
}

#[test]
fn tile_000() {
    let build = worked();
    assert_eq!(listed(tile(&build.state, &build.lent(), 0, 0, 0)), items(&[(0, 176, 256)]));
    assert_eq!(tally(&build.state, &build.lent(), 0, 0, 0), Ok(4));
}

#[test]
fn a_lamp_at_the_edge() {
    let build = single(Plane::Cartesian(UNIT), &[[1.0, 0.5]]);
    let both = items(&[(0, 512, 256), (0, 0, 256)]);
    assert_eq!(listed(tile(&build.state, &build.lent(), 0, 0, 0)), both);
    // The entry counts once.
    assert_eq!(tally(&build.state, &build.lent(), 0, 0, 0), Ok(1));
}

#[test]
fn a_lamp_at_the_fence_of_a_plan() {
    let mut build = single(Plane::Cartesian(UNIT), &[[1.0, 0.5]]);
    build.state.options.longitude_strips_only = true;
    assert_eq!(listed(tile(&build.state, &build.lent(), 0, 0, 0)), items(&[(0, 512, 256)]));
    assert_eq!(tally(&build.state, &build.lent(), 0, 0, 0), Ok(1));
    // Its ghost is all that the first tile of zoom 1 would list. A tally over no entry is 0 (#104).
    assert_eq!(tile(&build.state, &build.lent(), 1, 0, 0).told(&mut []), refused(8));
    assert_eq!(tally(&build.state, &build.lent(), 1, 0, 0), Ok(0));
}

#[test]
fn longitude_has_strips_either_way() {
    let mut build = single(Plane::Globe, &[[1.0, 0.5]]);
    for longitude_strips_only in [false, true] {
        build.state.options.longitude_strips_only = longitude_strips_only;
        let both = items(&[(0, 512, 256), (0, 0, 256)]);
        assert_eq!(listed(tile(&build.state, &build.lent(), 0, 0, 0)), both);
        assert_eq!(listed(tile(&build.state, &build.lent(), 1, 0, 0)), items(&[(0, 0, 512)]));
    }
}

#[test]
fn both_strips_at_zoom_0() {
    let build = single(Plane::Cartesian(UNIT), &[[0.0, 0.5], [1.0, 0.5]]);
    let all = items(&[(0, 0, 256), (1, 512, 256), (1, 0, 256), (0, 512, 256)]);
    assert_eq!(listed(tile(&build.state, &build.lent(), 0, 0, 0)), all);
    assert_eq!(tally(&build.state, &build.lent(), 0, 0, 0), Ok(2));
}

#[test]
fn halves_go_away_from_zero() {
    let rounded = |z: u8, at: f64| {
        let mut build = single(Plane::Cartesian(UNIT), &[[at, at]]);
        build.state.options = Options { radius: 1.0, extent: 1.0, ..build.state.options };
        listed(tile(&build.state, &build.lent(), z, u32::from(z), u32::from(z)))
    };
    assert_eq!(rounded(0, 0.5), items(&[(0, 1, 1), (0, -1, 1), (0, 2, 1)]));
    assert_eq!(rounded(1, 0.25), items(&[(0, -1, -1), (0, 2, -1)]));
}

#[test]
fn refused_tiles() {
    let build = worked();
    for (z, x, y, number) in [
        (32, 0, 0, 7),
        (255, 0, 0, 7),
        (0, 1, 0, 7),
        (0, 0, 1, 7),
        (31, 1 << 31, 0, 7),
        (31, 0, u32::MAX, 7),
        (1, 1, 1, 8),
        (31, u32::MAX >> 1, 0, 8),
    ] {
        let answer = tile(&build.state, &build.lent(), z, x, y);
        assert_eq!(answer.told(&mut []), refused(number), "{z} {x} {y}");
        let tallied = tally(&build.state, &build.lent(), z, x, y);
        // 8 is not a tally's: over no entry it is 0 (#104).
        let expected = if number == 8 { Ok(0) } else { Err(number) };
        assert_eq!(tallied.map_err(|refusal| refusal as u32), expected, "{z} {x} {y}");
    }
}

/// The lamps of the design's example of a box that lists an entry twice.
fn row() -> Build {
    let longitudes = [-180.0, -170.0, 0.0, 170.0, 180.0];
    single(Plane::Globe, &longitudes.map(|v| [v / 360.0 + 0.5, 0.5]))
}

#[test]
fn a_box_longer_than_its_table() {
    let build = row();
    let of = |w, e| listed(in_box(&build.state, &build.lent(), 1, [w, 0.0, e, 1.0]));
    assert_eq!(of(-180.00000000000006, -170.0), [0, 1, 2, 3, 4, 0, 1]);
    assert_eq!(of(180.0, 180.0), [0, 1, 2, 3, 4]);
    assert_eq!(of(-180.0, 180.0), [0, 1, 2, 3, 4]);
    assert_eq!(of(170.0, -170.0), [3, 4, 0, 1]);
    assert_eq!(of(-170.0, 170.0), [1, 2, 3]);
    assert_eq!(of(-f64::MAX, f64::MAX), [0, 1, 2, 3, 4]);
}

#[test]
fn the_y_of_a_box_is_used_as_given() {
    let build = row();
    let of =
        |least, greatest| in_box(&build.state, &build.lent(), 1, [-180., least, 180., greatest]);
    assert_eq!(listed(of(0.5, 0.5)), [0, 1, 2, 3, 4]);
    assert!(listed(of(0.5000000000000001, 1.0)).is_empty());
    assert!(listed(of(1.0, 0.0)).is_empty());
    for [least, greatest] in [[-f64::MIN_POSITIVE, 1.0], [0.0, 1.5], [f64::NAN, 1.0]] {
        assert_eq!(of(least, greatest).told(&mut []), refused(9));
    }
}

#[test]
fn a_cartesian_box() {
    let build = worked();
    let of = |zoom, corners| in_box(&build.state, &build.lent(), zoom, corners);
    assert_eq!(listed(of(2, [0.25, 0.5, 0.3125, 0.5])), [0, 1]);
    assert_eq!(listed(of(1, [-5.0, -5.0, 5.0, 5.0])), [0, 1]);
    assert_eq!(listed(of(255, [-f64::MAX, -f64::MAX, f64::MAX, f64::MAX])), [0, 1, 2, 3]);
    assert!(listed(of(2, [1.0, 0.0, 0.0, 1.0])).is_empty());
    for at in 0..4 {
        for wrong in [f64::NAN, f64::INFINITY, f64::NEG_INFINITY] {
            let mut corners = [0.0, 0.0, 1.0, 1.0];
            corners[at] = wrong;
            assert_eq!(of(2, corners).told(&mut []), refused(9));
        }
    }
}

#[test]
fn rings() {
    let build = worked();
    let of = |zoom, circle| ring(&build.state, &build.lent(), zoom, circle);
    assert_eq!(listed(of(2, [0.25, 0.5, 0.0625])), [0, 1]);
    assert_eq!(listed(of(2, [0.25, 0.5, -0.0])), [0]);
    assert_eq!(listed(of(2, [1e300, 0.0, 1e200])), [0, 1, 2, 3]);
    for circle in [[0.5, 0.5, -1.0], [0.5, 0.5, f64::INFINITY], [f64::NAN, 0.5, 1.0]] {
        assert_eq!(of(2, circle).told(&mut []), refused(9));
    }
}

/// The row in an index with at most two slots in an interval that is not split.
fn split_row() -> Build {
    let mut build = row();
    build.state.options.node_size = 1;
    build
}

/// What the box below lists, whose first half is the whole row: its median, its right part, its left; then of the second half,
/// whose median does not pass, the left part alone.
const ROW: [u32; 7] = [2, 3, 4, 0, 1, 0, 1];

fn within(build: &Build, tests: usize) -> Effort {
    let corners = [-180.00000000000006, 0.0, -170.0, 1.0];
    effort_box(&build.state, &build.lent(), 9, corners, tests)
}

fn replied(number: u32, carried: u64, tested: usize, stopped: bool) -> EffortReply {
    EffortReply { reply: Reply { number, carried }, tested, stopped }
}

#[test]
fn an_effort_over_both_halves() {
    let (build, stops) = (split_row(), [0, 1, 2, 3, 4, 5, 5, 6, 7, 7]);
    for (tests, items) in stops.into_iter().enumerate() {
        let effort = within(&build, tests);
        assert_eq!(effort.answer.items, ROW[..items]);
        assert_eq!((effort.tested, effort.stopped), (tests.min(8), tests < 8));
    }
}

#[test]
fn the_room_for_what_was_found_before_the_stop() {
    let mut out = [9; 6];
    assert_eq!(within(&split_row(), 7).told(&mut out), replied(0, 6, 7, true));
    assert_eq!(within(&split_row(), 8).told(&mut out), replied(10, 7, 8, false));
    assert_eq!(out, ROW[..6]);
}

#[test]
fn an_effort_that_comes_to_a_spoiled_slot() {
    let (mut build, mut out) = (split_row(), [9; 6]);
    build.columns.ids[1] = 5;
    assert_eq!(within(&build, 4).told(&mut out), replied(0, 4, 4, true));
    assert_eq!(within(&build, 5).told(&mut out), replied(11, 0, 0, false));
    assert_eq!(out, [2, 3, 4, 0, 9, 9]);
}
