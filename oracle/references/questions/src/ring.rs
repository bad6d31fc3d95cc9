//! The entries in a ring.

use crate::{
    search::{walk, Query},
    Answer, Lent, Refusal, State,
};

/// The places within a radius, in the table of the zoom used; x, y and radius are in table units.
pub fn ring(state: &State, lent: &Lent, zoom: u8, circle: [f64; 3]) -> Answer<u32> {
    Answer::of(|places| {
        state.check_index(lent)?;
        let [_, _, radius] = circle;
        if !circle.iter().all(|v| v.is_finite()) || radius < 0.0 {
            return Err(Refusal::Box);
        }
        let index = state.index(lent, state.zoom_used(zoom));
        walk(&index, &Query::Within(circle), &mut |place| {
            places.push(place as u32);
            Ok(())
        })
    })
}
