//! Builds written out by hand, whose indexes are not split.

pub use columns::NO_PARENT as NONE;
use columns::{Columns, Entry, Lent, Slot};
pub use options::WORKED;
use options::{Options, Plane};
use questions::{State, ZOOMS};

/// An entry: x, y, id, parent, num.
pub type Given = (f64, f64, u32, u32, u32);

/// A state and columns of its own.
#[derive(Clone)]
pub struct Build {
    pub state: State,
    pub columns: Columns,
}

impl Build {
    /// A build of these tables, the finest first.
    pub fn of(options: Options, tables: &[&[Given]]) -> Build {
        let count = tables[0].len() as u32;
        let state = State { options, count, starts: [0; ZOOMS], lens: [0; ZOOMS] };
        let mut build = Build { state, columns: Columns::default() };
        for (down, table) in tables.iter().enumerate() {
            let zoom = usize::from(options.max_zoom) + 1 - down;
            build.state.starts[zoom] = build.columns.x.len() as u32;
            build.state.lens[zoom] = table.len() as u32;
            table.iter().enumerate().for_each(|(place, entry)| build.push(place, *entry));
        }
        build
    }

    fn push(&mut self, place: usize, (x, y, id, parent, num): Given) {
        let entry = Entry { x, y, seen: 0, id, parent, num, energy: 0 };
        self.columns.push(&entry, &Slot { place: place as u32, at: [x, y] });
    }

    pub fn lent(&self) -> Lent<'_> {
        self.columns.lent()
    }
}

/// SCOPE's worked build. Not every test asks it.
#[allow(dead_code)]
pub fn worked() -> Build {
    let finest = [
        (0.25, 0.5, 0, 6, 1),
        (0.3125, 0.5, 1, 6, 1),
        (0.40625, 0.5, 2, 70, 1),
        (0.40625, 0.5, 3, 70, 1),
    ];
    let middle = [(0.28125, 0.5, 6, 5, 2), (0.40625, 0.5, 70, 5, 2)];
    Build::of(WORKED, &[&finest, &middle, &[(0.34375, 0.5, 5, NONE, 4)]])
}

/// Lamps that stay single in both tables of the zooms 1 and 0.
pub fn single(plane: Plane, lamps: &[[f64; 2]]) -> Build {
    let entry = |(i, [x, y]): (usize, &[f64; 2])| (*x, *y, i as u32, NONE, 1);
    let table: Vec<Given> = lamps.iter().enumerate().map(entry).collect();
    Build::of(Options { max_zoom: 0, plane, ..WORKED }, &[&table, &table])
}
