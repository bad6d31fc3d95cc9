//! The columns of the tables as one value, owned and lent, and an entry of them as one record. Each column is named
//! once, in `with_columns`; what is done to all of them is a `Change`, a `Read` or a `ReadBoth`.

mod value;

pub use value::{Change, Read, ReadBoth, Value};

use std::ops::Range;

/// Hands the columns to a macro, in the order in which they are lent: those of the entries and those of the index, each
/// with what it holds; then what else is given.
#[macro_export]
macro_rules! with_columns {
    ($then:ident! $($rest:tt)*) => {
        $then! {
            [x: f64, y: f64, seen: u8, id: u32, parent: u32, num: u32, energy: u64]
            [ids: u32, coords: f64]
            $($rest)*
        }
    };
}

/// The mark of an entry that no zoom has seen; the Rust's is infinity.
pub const UNSEEN: u8 = 255;

/// The parent of an entry that has none; the Rust's is -1.
pub const NO_PARENT: u32 = u32::MAX;

/// How many numbers of a column are one entry's.
pub fn width(name: &str) -> usize {
    match name {
        "coords" => 2,
        _ => 1,
    }
}

/// The points that a build is given: their coordinates and their energies.
#[derive(Clone, Copy, Debug)]
pub struct Given<'a> {
    pub xs: &'a [f64],
    pub ys: &'a [f64],
    pub energies: &'a [u64],
}

/// The slot of an index: the place of an entry, and where that lies.
#[derive(Clone, Copy, Debug, PartialEq)]
pub struct Slot {
    pub place: u32,
    pub at: [f64; 2],
}

macro_rules! columns {
    ([$($entry:ident: $number:ty),*] [$($slot:ident: $kind:ty),*]) => {
        columns!([$($entry: $number),*] of [$($entry: $number,)* $($slot: $kind),*]);
    };
    ([$($entry:ident: $number:ty),*] of [$($name:ident: $kind:ty),*]) => {
        /// The names of the columns, in the order in which they are lent.
        pub const NAMES: [&str; [$(stringify!($name)),*].len()] = [$(stringify!($name)),*];

        /// An entry of a table.
        #[derive(Clone, Copy, Debug, PartialEq)]
        pub struct Entry {
            $(pub $entry: $number,)*
        }

        impl Entry {
            /// Its numbers, of floats the bits.
            pub fn words(&self) -> Vec<u64> {
                vec![$(self.$entry.bits()),*]
            }
        }

        /// Columns of one's own.
        #[derive(Clone, Debug, Default)]
        pub struct Columns {
            $(pub $name: Vec<$kind>,)*
        }

        /// Columns as a question is lent them.
        #[derive(Clone, Copy, Debug)]
        pub struct Lent<'a> {
            $(pub $name: &'a [$kind],)*
        }

        /// Columns as a build is lent them.
        pub struct Written<'a> {
            $(pub $name: &'a mut [$kind],)*
        }

        impl Columns {
            /// Zeros of these lengths. The system hands them out page by page, so that a page that is never written to
            /// takes no memory.
            pub fn zeros([$($name),*]: Lengths) -> Columns {
                Columns { $($name: vec![<$kind>::default(); $name],)* }
            }

            /// The columns, lent whole.
            pub fn lent(&self) -> Lent<'_> {
                Lent { $($name: &self.$name,)* }
            }

            /// The first so many numbers of each, to be written to.
            pub fn fronts(&mut self, [$($name),*]: Lengths) -> Written<'_> {
                Written { $($name: &mut self.$name[..$name],)* }
            }

            /// Does this to each column.
            pub fn change(&mut self, what: &mut impl Change) {
                $(what.column(stringify!($name), &mut self.$name);)*
            }

            /// One entry more, without a slot.
            pub fn push_entry(&mut self, entry: &Entry) {
                $(self.$entry.push(entry.$entry);)*
            }
        }

        impl<'a> Lent<'a> {
            /// The first so many numbers of each.
            pub fn fronts(&self, [$($name),*]: Lengths) -> Lent<'a> {
                Lent { $($name: &self.$name[..$name],)* }
            }

            /// The entries at these positions and the slots there, no more.
            pub fn part(&self, at: Range<usize>) -> Lent<'a> {
                let of = |name: &str| at.start * width(name)..at.end * width(name);
                Lent { $($name: &self.$name[of(stringify!($name))],)* }
            }

            /// The length of each column.
            pub fn lengths(&self) -> Lengths {
                [$(self.$name.len()),*]
            }

            /// Reads this off each column.
            pub fn read(&self, what: &mut impl Read) {
                $(what.column(stringify!($name), self.$name);)*
            }

            /// Reads this off each column and that of other ones.
            pub fn read_beside(&self, other: &Lent, what: &mut impl ReadBoth) {
                $(what.columns(stringify!($name), self.$name, other.$name);)*
            }

            /// The entry at a position.
            pub fn entry(&self, at: usize) -> Entry {
                Entry { $($entry: self.$entry[at],)* }
            }
        }
    };
}

with_columns!(columns!);

/// A length for each column, in the order of their names.
pub type Lengths = [usize; NAMES.len()];

/// The lengths of columns that have room for so many entries, and no more.
pub fn needed(entries: usize) -> Lengths {
    NAMES.map(|name| entries * width(name))
}

impl Columns {
    /// One entry more, and one slot.
    pub fn push(&mut self, entry: &Entry, slot: &Slot) {
        self.push_entry(entry);
        self.ids.push(slot.place);
        self.coords.extend(slot.at);
    }
}

impl Lent<'_> {
    /// The slot at a position.
    pub fn slot(&self, at: usize) -> Slot {
        Slot { place: self.ids[at], at: [self.coords[2 * at], self.coords[2 * at + 1]] }
    }

    /// For how many entries all columns have room.
    pub fn room(&self) -> usize {
        let rooms = NAMES.iter().zip(self.lengths()).map(|(name, length)| length / width(name));
        rooms.min().unwrap_or(0)
    }
}
