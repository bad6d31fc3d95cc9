//! One build by the port: its reply, its state and its columns, beside what is expected of them.

use crate::{
    package::{self, Columns, Lengths},
    report::other,
    GUARD,
};
use columns::{Change, Given, Lent, ReadBoth, Value};
use options::Options;
use questions::{climbed, State};
use reachvolem::lent::{Reply, ZOOMS};
use rust_builds::Tables;

/// What a build is asked for: options, points, and the lengths of the lent columns.
pub struct Request<'a> {
    pub options: &'a Options,
    pub given: Given<'a>,
    pub lengths: Lengths,
}

/// What a build left.
pub struct Outcome {
    options: Options,
    count: usize,
    reply: Reply,
    columns: Columns,
    starts: Vec<u32>,
    lens: Vec<u32>,
}

impl Request<'_> {
    /// The port's build, in columns with old contents.
    pub fn made(&self) -> Outcome {
        let mut columns = old_columns(self.lengths);
        let [mut starts, mut lens] = [STARTS, LENS].map(|name| old(name, ZOOMS + GUARD));
        let state = [whole(&mut starts), whole(&mut lens)];
        let reply = package::load(self.options, &self.given, &mut columns, self.lengths, state);
        let (options, count) = (*self.options, self.given.xs.len());
        Outcome { options, count, reply, columns, starts, lens }
    }
}

impl Outcome {
    /// How this is not a build of these tables, if it is not.
    pub fn is_not(&self, tables: &Tables) -> Option<String> {
        self.is_not_of(&tables.columns.lent(), [&tables.starts, &tables.lens])
    }

    /// The same of tables in these columns, with their starts and lengths. The owners are those that are climbed to in them.
    pub fn is_not_of(&self, columns: &Lent, state: [&[u32; ZOOMS]; 2]) -> Option<String> {
        let [starts, lens] = state;
        let near = vec![0; 2 * self.count];
        let Some(owners) = self.climbed(columns, state) else {
            return Some("a lamp without one owner in the Rust's tables".to_string());
        };
        other("reply", Reply { number: 0, carried: 0 }, self.reply)
            .or_else(|| self.other_state(starts, lens))
            .or_else(|| self.other_columns(columns, &near, &owners))
    }

    /// The owners that are climbed to in tables of these options and points.
    pub fn climbed(&self, columns: &Lent, [starts, lens]: [&[u32; ZOOMS]; 2]) -> Option<Vec<u32>> {
        let Outcome { options, count, .. } = *self;
        let state = State { options, count: count as u32, starts: *starts, lens: *lens };
        climbed(&state, columns)
    }

    /// The owners of each table that was built, by its zoom, the finest first; of a refused build there are none.
    pub fn owners(&self) -> impl Iterator<Item = (usize, &[u32])> + '_ {
        let Options { min_zoom, max_zoom, .. } = self.options;
        let zooms = (usize::from(min_zoom)..=usize::from(max_zoom) + 1).rev();
        let parts = self.columns.owners.chunks_exact(self.count.max(1));
        zooms.zip(parts).filter(|_| self.reply.number == 0)
    }

    /// The energies of each table that was built, by its zoom, added up; of a refused build there are none.
    pub fn totals(&self) -> impl Iterator<Item = (usize, u128)> + '_ {
        let zooms = if self.reply.number == 0 { 0..ZOOMS } else { 0..0 };
        let built = zooms.filter(|zoom| self.lens[*zoom] > 0);
        built.map(|zoom| {
            let (start, length) = (self.starts[zoom] as usize, self.lens[zoom] as usize);
            let table = &self.columns.tables.energy[start..start + length];
            (zoom, table.iter().map(|energy| u128::from(*energy)).sum())
        })
    }

    /// What is left: the columns, starts and lengths.
    pub fn left(self) -> (Columns, [[u32; ZOOMS]; 2]) {
        (self.columns, [self.starts, self.lens].map(|mut column| *whole(&mut column)))
    }

    /// How this is not a build refused by this reply, if it is not.
    pub fn is_not_refused(&self, reply: Reply) -> Option<String> {
        other("reply", reply, self.reply)
            .or_else(|| self.other_state(&[], &[]))
            .or_else(|| self.other_columns(&columns::Columns::default().lent(), &[], &[]))
    }

    fn other_state(&self, starts: &[u32], lens: &[u32]) -> Option<String> {
        other_front(STARTS, starts, &self.starts).or_else(|| other_front(LENS, lens, &self.lens))
    }

    fn other_columns(&self, columns: &Lent, near: &[u32], owners: &[u32]) -> Option<String> {
        let mut other = Other(None);
        columns.read_beside(&self.columns.tables.lent(), &mut other);
        other
            .0
            .or_else(|| other_front(NEAR, near, &self.columns.near))
            .or_else(|| other_front(OWNERS, owners, &self.columns.owners))
    }
}

const STARTS: &str = "starts";
const LENS: &str = "lens";
const NEAR: &str = "near";
const OWNERS: &str = "owners";

/// Where a column first is not the expected one and old contents from its end on.
struct Other(Option<String>);

impl ReadBoth for Other {
    fn columns<T: Value>(&mut self, name: &'static str, expected: &[T], found: &[T]) {
        if self.0.is_none() {
            self.0 = other_front(name, expected, found);
        }
    }
}

/// What is lent of a column of starts or lengths.
fn whole(column: &mut [u32]) -> &mut [u32; ZOOMS] {
    column.first_chunk_mut().expect("room for the state")
}

/// Columns that hold nothing of a build yet, with something behind what is lent of them.
fn old_columns(lengths: Lengths) -> Columns {
    let mut columns = Columns::zeros(lengths.map(|length| length + GUARD));
    columns.tables.change(&mut Old);
    columns.near = old(NEAR, columns.near.len());
    columns.owners = old(OWNERS, columns.owners.len());
    columns
}

/// Old contents in place of all that a column holds.
struct Old;

impl Change for Old {
    fn column<T: Value>(&mut self, name: &'static str, column: &mut Vec<T>) {
        *column = old(name, column.len());
    }
}

/// So many old numbers of a column.
fn old<T: Value>(name: &str, length: usize) -> Vec<T> {
    let salt = salt(name);
    (0..length).map(|at| old_at(salt, at)).collect()
}

/// What a column holds at a position before a build: nothing that a build writes there. `salt` tells the columns apart.
fn old_at<T: Value>(salt: u64, at: usize) -> T {
    T::of_bits(0xc000_0000_c000_0000 | salt << 24 ^ (31 * at as u64 + salt))
}

/// A number for a column's name.
fn salt(name: &str) -> u64 {
    name.bytes().fold(0, |sum, byte| (5 * sum + u64::from(byte)) % 32)
}

/// Whether one number is the other, by its bits, the two zeros being equal.
fn is<T: Value>(one: T, other: T) -> bool {
    one.bits() == other.bits() || one == other
}

/// Where a column is not this front and old contents from there on, if it is not.
fn other_front<T: Value>(name: &str, front: &[T], found: &[T]) -> Option<String> {
    let salt = salt(name);
    let expected = |at: usize| front.get(at).copied().unwrap_or_else(|| old_at(salt, at));
    let last = front.len().max(found.len());
    let differs = |at: &usize| found.get(*at).is_none_or(|found| !is(*found, expected(*at)));
    let at = (0..last).find(differs)?;
    Some(format!("{name}[{at}]: expected {:?}, found {:?}", expected(at), found.get(at)))
}
