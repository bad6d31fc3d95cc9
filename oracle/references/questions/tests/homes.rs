//! The tile that holds a coordinate: on the borders of tiles and one step beside them, and at both ends.

mod common;

use common::single;
use options::{Plane, UNIT};
use questions::{home, tally};

#[test]
fn borders_and_one_step_beside_them() {
    for z in 1..=31 {
        let tiles = 1_u64 << z;
        for v in [1, 2, 3, tiles / 2, tiles - 1].into_iter().filter(|v| *v < tiles) {
            let border = v as f64 / tiles as f64;
            assert_eq!(u64::from(home(z, border)), v, "{z} {v}");
            assert_eq!(u64::from(home(z, border.next_up())), v, "{z} {v}");
            assert_eq!(u64::from(home(z, border.next_down())), v - 1, "{z} {v}");
        }
    }
}

#[test]
fn both_ends() {
    for z in 0..=31 {
        let last = ((1_u64 << z) - 1) as u32;
        for c in [1.0, 1.0_f64.next_down()] {
            assert_eq!(home(z, c), last, "{z}");
        }
        for c in [0.0, -0.0, f64::MIN_POSITIVE, f64::from_bits(1), f64::from_bits((1 << 52) - 1)] {
            assert_eq!(home(z, c), 0, "{z}");
        }
    }
    assert_eq!([0.1, 0.3, 0.7, 0.9].map(|c| home(5, c)), [3, 9, 22, 28]);
    assert_eq!(home(31, 0.1), 214_748_364);
}

/// Lamps at the corners and in the middle: at zoom 1 each tile has its own, although every one lists the middle.
#[test]
fn each_lamp_in_one_tile() {
    let lamps = [[0.0, 0.0], [1.0, 0.0], [0.0, 1.0], [1.0, 1.0], [0.5, 0.5]];
    let build = single(Plane::Cartesian(UNIT), &lamps);
    let of = |z, x, y| tally(&build.state, &build.lent(), z, x, y);
    let zoom_1 = [[0, 0], [1, 0], [0, 1], [1, 1]].map(|[x, y]| of(1, x, y));
    assert_eq!(zoom_1, [Ok(1), Ok(1), Ok(1), Ok(2)]);
    assert_eq!(of(0, 0, 0), Ok(5));
    assert_eq!(of(2, 1, 1), Ok(0));
}
