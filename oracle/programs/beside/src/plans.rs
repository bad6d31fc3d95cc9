//! Tiles of a site plan whose strips are left out (#114): what is asked of the Rust there, and what its own tile
//! lists besides.

use crate::{judge::Judge, Case, Rust, Said, Verdict};
use options::{Options, Plane};
use questions::Question;

/// The tile of a question, where it has no strips because the options leave them out.
pub fn without_strips(options: &Options, question: &Question) -> Option<(u8, u32, u32)> {
    let Question::Tile { z, x, y } = *question else {
        return None;
    };
    let on_a_plan = matches!(options.plane, Plane::Cartesian(_));
    let is_tile = z < 32 && u64::from(x.max(y)) < 1 << z;
    (options.longitude_strips_only && on_a_plan && is_tile).then_some((z, x, y))
}

/// The verdict on an answer that is the Rust's by the tile's own range, as `own` says it: the Rust's tile is the same
/// but in the first and the last of a row, where its strips may list more behind it.
pub fn beside_strips<J: Judge>(case: &Case, rust: &Rust<J>, own: &Said) -> Verdict {
    let Some((z, x, y)) = without_strips(&case.state.options, &case.question) else {
        return Verdict::Same;
    };
    let whole = rust.tile(z, x, y);
    let has_strip = x == 0 || u64::from(x) + 1 == 1 << z;
    let items = |said: &Said| match said {
        Said::Items(items) => items.clone(),
        _ => Vec::new(),
    };
    match whole == *own {
        true => Verdict::Same,
        false if has_strip && items(&whole).starts_with(&items(own)) => Verdict::Listed("P1 to P3"),
        false => Verdict::Different(format!("the {} Rust's tile has another range", J::NAME)),
    }
}
