//! The entries in a box.

use crate::{
    search::{walk, Query},
    Answer, Lent, Refusal, State,
};
use options::Plane;

/// A box: west, least y, east, greatest y. y grows downwards on a mercator map, so that the least y is the northern
/// edge on the globe; on a plan it is the least y as given.
type Corners = [f64; 4];

/// The places in a box, in the table of the zoom used. Its corners are least x, least y, greatest x and
/// greatest y in the caller's coordinates; for longitude, x in degrees and y in [0,1].
pub fn in_box(state: &State, lent: &Lent, zoom: u8, corners: Corners) -> Answer<u32> {
    Answer::of(|places| {
        state.check_index(lent)?;
        check(&state.options.plane, &corners)?;
        let index = state.index(lent, state.zoom_used(zoom));
        parts(&state.options.plane, corners).into_iter().try_for_each(|part| {
            walk(&index, &Query::Range(part), &mut |place| {
                places.push(place as u32);
                Ok(())
            })
        })
    })
}

/// Refuses a number that is not finite as given, and a mercator y outside [0,1].
pub(crate) fn check(plane: &Plane, corners: &Corners) -> Result<(), Refusal> {
    let finite = corners.iter().all(|v| v.is_finite());
    let on_the_map = match plane {
        Plane::Cartesian(_) => true,
        Plane::Globe => [corners[1], corners[3]].iter().all(|y| (0.0..=1.0).contains(y)),
    };
    match finite && on_the_map {
        true => Ok(()),
        false => Err(Refusal::Box),
    }
}

/// The boxes in table units that are searched for a box, one after the other.
pub(crate) fn parts(plane: &Plane, corners: Corners) -> Vec<Corners> {
    match plane {
        Plane::Cartesian(range) => vec![corners.map(|v| range.normalize(v))],
        Plane::Globe => around_the_globe(corners),
    }
}

/// How many searches a box comes to: two, where it goes across the date line.
pub fn searches(plane: &Plane, corners: Corners) -> usize {
    parts(plane, corners).len()
}

/// SCOPE's rule of the longitudes: the whole row, or two halves that go through the rule again, or one box.
fn around_the_globe([west, least_y, east, greatest_y]: Corners) -> Vec<Corners> {
    let (mut new_w, mut new_e) = (turned(west), if east == 180.0 { 180.0 } else { turned(east) });
    if east - west >= 360.0 {
        (new_w, new_e) = (-180.0, 180.0);
    } else if new_w > new_e {
        let mut halves = around_the_globe([new_w, least_y, 180.0, greatest_y]);
        halves.extend(around_the_globe([-180.0, least_y, new_e, greatest_y]));
        return halves;
    }
    vec![[converted(new_w), least_y, converted(new_e), greatest_y]]
}

/// A longitude, turned to one from -180 on.
fn turned(v: f64) -> f64 {
    ((v + 180.0) % 360.0 + 360.0) % 360.0 - 180.0
}

/// A longitude in table units.
fn converted(longitude: f64) -> f64 {
    longitude / 360.0 + 0.5
}
