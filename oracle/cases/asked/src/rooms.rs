//! How long the output columns are.

use splitmix::Splitmix;

/// The lengths of the three output columns: a list has the first alone, a tile all three, a number none.
pub type Rooms = [usize; 3];

/// Lengths for an answer of this length: longer, exact, one short, half, none; each column its own.
pub fn rooms(length: usize, source: &mut Splitmix) -> Rooms {
    let short = length.saturating_sub(1);
    let some = [length + 3, length + 1, length, length, short, length / 2, 0];
    match source.below(2) {
        0 => [length + source.below(3) as usize; 3],
        _ => [(); 3].map(|()| source.pick(&some)),
    }
}
