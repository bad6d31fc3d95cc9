//! The package `reachvolem`, asked with the oracle's own types: every part of the comparison goes by its lower layer.
//!
//! Its own part, `inprocess package`, is what the package adds to that, on the builds and the spoiled tables of `questions`:
//! conversions and the zoom used beside the Rust's, latitudes beside the y of its finest table, the columns that a build keeps
//! beside the patched Rust's, and beside the references the lists that grow, tables and entries, and each lamp's owner, over spoiled
//! columns of owners too.
//!
//! That this can fail was tried, in the short form of 503,098 cases, with a package that is wrong in these things at once:
//! normalising that denormalises, a zoom used of at most max_zoom, columns an entry too long, a second call with room for one item
//! less, tables without their last entry, owners by the id and 1 where there is no parent, 11 told as 6. Of the groups in their
//! order 30,860, 2,876, 0, 361, 57, 6,935, 5,892 and 124,126 cases differ. With latitudes by `atanh` 3,753 of theirs do. With owners read
//! from the column's coarsest part on 2,968 and 1,239 of theirs differ, with the length of a table taken for a place 34.

mod numbers;
mod upper;

use crate::report::finish;
use asked::Form;
use columns::{width, with_columns, Given, Written};
use options::{Options, Plane};
use reachvolem::{
    lent::{self, Asked, Reply, ZOOMS},
    CoordinateSystem, DataRange,
};
use splitmix::Splitmix;
use std::process::ExitCode;
use upper::Upper;

/// Runs every group.
pub fn run(form: Form) -> ExitCode {
    let mut source = Splitmix(115);
    let mut groups = numbers::compared(&mut source);
    groups.extend(Upper::new().compared(form, &mut source));
    finish("package", groups)
}

macro_rules! names {
    ([$($entry:ident: $number:ty),*] [$($slot:ident: $kind:ty),*]) => {
        /// The names of the columns, in the order in which they are lent: those of the tables, the neighbours, and the owners.
        pub const COLUMNS: [&str; columns::NAMES.len() + 2] =
            [$(stringify!($entry),)* $(stringify!($slot),)* "near", "owners"];
    };
}

with_columns!(names!);

/// A length for each column, in the order of their names.
pub type Lengths = [usize; COLUMNS.len()];

/// The lengths that SCOPE asks of the columns for a build of so many points: the coordinates have two to an entry.
pub fn needed(options: &Options, count: usize) -> Lengths {
    let entries = options.tables() * count;
    COLUMNS.map(|name| entries * width(name))
}

/// The columns of a build: those of the tables, the neighbours, and the owners.
#[derive(Clone, Debug, Default)]
pub struct Columns {
    pub tables: columns::Columns,
    pub near: Vec<u32>,
    pub owners: Vec<u32>,
}

impl Columns {
    /// Zeros of these lengths.
    pub fn zeros(lengths: Lengths) -> Columns {
        let (tables, [near, owners]) = parts(lengths);
        let [near, owners] = [near, owners].map(|length| vec![0; length]);
        Columns { tables: columns::Columns::zeros(tables), near, owners }
    }

    /// The first so many numbers of each, lent to a build.
    fn fronts(&mut self, lengths: Lengths) -> lent::Written<'_> {
        macro_rules! written {
            ([$($entry:ident: $number:ty),*] [$($slot:ident: $kind:ty),*] $tables:ident, $others:ident) => {{
                let Written { $($entry,)* $($slot,)* } = $tables;
                let [near, owners] = $others;
                lent::Written { $($entry,)* $($slot,)* near, owners }
            }};
        }
        let (tables, [near, owners]) = parts(lengths);
        let tables = self.tables.fronts(tables);
        let others = [&mut self.near[..near], &mut self.owners[..owners]];
        with_columns!(written! tables, others)
    }
}

/// The lengths of the tables' columns, and those of the neighbours and of the owners.
fn parts(lengths: Lengths) -> (columns::Lengths, [usize; 2]) {
    let (tables, others) = lengths.split_last_chunk().expect("a length for each column");
    (tables.try_into().expect("a length for each column of the tables"), *others)
}

/// The build of points in the first so many numbers of each column; starts and lengths go into the two arrays.
pub fn load(
    options: &Options,
    given: &Given,
    columns: &mut Columns,
    lengths: Lengths,
    [starts, lens]: [&mut [u32; ZOOMS]; 2],
) -> Reply {
    let Given { xs, ys, energies } = *given;
    let given = lent::Given { xs, ys, energies };
    lent::load(&as_options(options), &given, columns.fronts(lengths), starts, lens)
}

/// A state and columns as a question is lent them.
pub fn as_asked<'a>(state: &'a questions::State, lent: &questions::Lent<'a>) -> Asked<'a> {
    let questions::State { options, count, starts, lens } = state;
    let (options, columns) = (as_options(options), as_columns(lent));
    Asked { options, count: *count, starts, lens, columns }
}

/// A state as the package has it.
fn as_state(state: &questions::State) -> lent::State {
    let questions::State { options, count, starts, lens } = state;
    lent::State { options: as_options(options), count: *count, starts: *starts, lens: *lens }
}

/// The columns of the tables as they are lent, without that of the owners.
fn as_columns<'a>(lent: &columns::Lent<'a>) -> lent::Columns<'a> {
    macro_rules! columns {
        ([$($entry:ident: $number:ty),*] [$($slot:ident: $kind:ty),*] $lent:ident) => {
            lent::Columns { $($entry: $lent.$entry,)* $($slot: $lent.$slot,)* owners: &[] }
        };
    }
    with_columns!(columns! lent)
}

/// The owner of a lamp, asked of a state and the column of the owners alone.
pub fn owner(state: &questions::State, owners: &[u32], lamp: u32, zoom: u8) -> Reply {
    let questions::State { options, count, starts, lens } = state;
    let columns = lent::Columns { owners, ..lent::Columns::default() };
    let asked = Asked { options: as_options(options), count: *count, starts, lens, columns };
    asked.owner(lamp, zoom)
}

/// A reading posted to a state, the column of the energies and that of the owners.
pub fn post(
    state: &questions::State,
    energy: &mut [u64],
    owners: &[u32],
    lamp: u32,
    figure: u64,
) -> Reply {
    lent::post(&as_state(state), energy, owners, lamp, figure)
}

/// The options as the package has them.
fn as_options(options: &Options) -> reachvolem::Options {
    reachvolem::Options {
        min_zoom: options.min_zoom,
        max_zoom: options.max_zoom,
        min_points: options.min_points,
        radius: options.radius,
        extent: options.extent,
        node_size: options.node_size,
        coordinate_system: match &options.plane {
            Plane::Globe => CoordinateSystem::LatLng,
            Plane::Cartesian(range) => CoordinateSystem::Cartesian { range: as_range(range) },
        },
        longitude_strips_only: options.longitude_strips_only,
    }
}

/// A range as the package has it.
fn as_range(range: &options::Range) -> DataRange {
    let options::Range { min_x, min_y, max_x, max_y, offset, scale } = *range;
    DataRange { min_x, min_y, max_x, max_y, offset, scale }
}
