//! Changes of the indexes.

use super::entries::some;
use crate::Build;
use points::odd::WILD;
use splitmix::Splitmix;

/// Coordinates: out of order, not finite, no numbers.
pub fn coordinates(build: &mut Build, source: &mut Splitmix) {
    some(&mut build.columns.coords, source, |_, source| match source.below(2) {
        0 => source.unit(),
        _ => source.pick(&WILD),
    });
}

/// Slots that name a place at the end of their table or past it.
pub fn past_the_table(build: &mut Build, source: &mut Splitmix) {
    let state = &build.state;
    let lens: Vec<u32> = state.lens.iter().copied().filter(|length| *length > 0).collect();
    some(&mut build.columns.ids, source, |_, source| match source.below(3) {
        0 => u32::MAX,
        _ if lens.is_empty() => 0,
        _ => source.pick(&lens).wrapping_add(source.below(2) as u32),
    });
}

/// Slots that name the place of another.
pub fn named_twice(build: &mut Build, source: &mut Splitmix) {
    let old = build.columns.ids.clone();
    some(&mut build.columns.ids, source, |_, source| source.pick(&old));
}
