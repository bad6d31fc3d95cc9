//! As many points as a build can have, and one more.

use crate::Build;
use columns::{Columns, Entry, Slot};
use options::{Options, MOST_POINTS, USUAL};
use questions::{State, ZOOMS};

/// Lamps in a row, in a table of their own and in one of a single entry.
pub fn states() -> [Build; 2] {
    [MOST_POINTS, MOST_POINTS + 1].map(|count| count as u32).map(|count| {
        let (mut starts, mut lens) = ([0; ZOOMS], [0; ZOOMS]);
        (starts[0], lens[0], lens[1]) = (count, 1, count);
        let options = Options { max_zoom: 0, ..USUAL };
        let columns = row(count);
        let points = [&columns.x, &columns.y].map(|column| column[..count as usize].to_vec());
        let ys = points[1].clone();
        let energies = vec![1; count as usize];
        let state = State { options, count, starts, lens };
        let what = format!("{count} lamps");
        let listed = Vec::new();
        Build { what, points, ys, energies, on_the_globe: false, state, columns, listed }
    })
}

/// Lamps in a row, which is in order as an index too, and the first of them once more.
fn row(count: u32) -> Columns {
    let mut columns = Columns::default();
    for place in (0..count).chain([0]) {
        let [x, y] = [f64::from(place) / f64::from(count), 0.5];
        let lamp = Entry { x, y, seen: 0, id: place, parent: u32::MAX, num: 1, energy: 1 };
        columns.push(&lamp, &Slot { place, at: [x, y] });
    }
    columns
}
