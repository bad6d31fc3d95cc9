//! Lamps at both fences of a plan, and at the date line: the same tables asked with the strips run everywhere, and for
//! longitude only.

use super::cases::{built, with_rooms, Case};
use crate::plain::{Options, Plane, Range, UNIT, WORKED};
use asked::Build;
use points::{Points, Shape};
use questions::Question;
use splitmix::Splitmix;

/// Lamps on the fences and within a strip of them, and one that is far from both.
const LAMPS: [[f64; 2]; 6] =
    [[0.0, 0.5], [1.0, 0.5], [0.03125, 0.25], [0.96875, 0.75], [0.890625, 0.0], [0.5, 0.5]];

/// A plan whose offset and scale are derived.
const SITE: Range =
    Range { min_x: -8.0, min_y: 0.0, max_x: 24.0, max_y: 56.0, offset: None, scale: None };

/// Two cases for each coordinate system.
pub fn all(source: &mut Splitmix) -> Vec<Case> {
    let planes = [Plane::Cartesian(UNIT), Plane::Cartesian(SITE), Plane::Globe];
    planes.into_iter().flat_map(|plane| both_ways(plane, source)).collect()
}

/// All tiles of the zooms 0 to 2 that have a strip, and two that have none, with their tallies.
fn questions() -> Vec<Question> {
    let ends = [(0, vec![0]), (1, vec![0, 1]), (2, vec![0, 3])];
    let rows = |z: u8, x: u32| (0..1 << z).map(move |y| (z, x, y));
    let strips = ends.into_iter().flat_map(|(z, xs)| xs.into_iter().flat_map(move |x| rows(z, x)));
    let all = strips.chain([(2, 1, 1), (2, 2, 2)]);
    all.flat_map(|(z, x, y)| [Question::Tile { z, x, y }, Question::Tally { z, x, y }]).collect()
}

/// The lamps in a coordinate system, asked with the option off and on.
fn both_ways(plane: Plane, source: &mut Splitmix) -> [Case; 2] {
    let [off, on] = [false, true].map(|longitude_strips_only| {
        built("fences", Options { plane, longitude_strips_only, ..WORKED }, placed(&plane))
    });
    let answered = |build: &Build| {
        let asked = |question: &Question| question.answered(&build.state, &build.columns.lent());
        questions().iter().map(asked).collect::<Vec<_>>()
    };
    let on_a_plan = matches!(plane, Plane::Cartesian(_));
    assert_eq!(answered(&off) != answered(&on), on_a_plan, "strips that are left out on a plan");
    [off, on].map(|build| with_rooms(build, questions(), source))
}

/// The lamps as the port takes them: for longitude y is in [0,1].
fn placed(plane: &Plane) -> [Vec<f64>; 2] {
    let [xs, ys] = crate::plain::columns(&LAMPS);
    let points = Points { shape: Shape::AllEqual, xs, ys: ys.clone() }.placed(plane);
    match plane {
        Plane::Cartesian(_) => points,
        Plane::Globe => [points[0].clone(), ys],
    }
}
