//! The upper layer of the package: what it builds and lists by itself, beside the reference over the Rust's tables.

use super::{as_columns, as_options, as_state};
use crate::report::{other, other_column, Group};
use asked::{spoiled, Build, Form};
use columns::{Lent, ReadBoth, Value};
use questions::{climbed, Outcome, Question};
use reachvolem::{lent, Entry, Refused, Supercluster, Tables};
use splitmix::Splitmix;

/// What was compared so far.
pub struct Upper {
    loads: Group,
    questions: Group,
    entries: Group,
    owners: Group,
    spoiled: Group,
    spoiled_owners: Group,
}

impl Upper {
    pub fn new() -> Upper {
        Upper {
            loads: Group::new("package, builds that own their columns"),
            questions: Group::new("package, lists that grow"),
            entries: Group::new("package, entries and tables"),
            owners: Group::new("package, owners beside the leaves"),
            spoiled: Group::new("package, questions over spoiled tables"),
            spoiled_owners: Group::new("package, owners over spoiled columns"),
        }
    }

    /// Builds, and tables that no build made; the groups.
    pub fn compared(mut self, form: Form, source: &mut Splitmix) -> Vec<Group> {
        asked::each(form, source, |build, source| self.build(build, source));
        spoiled::each(form, source, |build, source| {
            let state = as_state(&build.state);
            let tables = Tables::lent(&state, as_columns(&build.columns.lent()));
            for question in asked::few(&build.scene(), source) {
                let about = || format!("{}, {question:?}", build.name());
                self.spoiled.compare(about, differs(&tables, build, &question));
            }
        });
        self.over_spoiled_owners(form);
        let Upper { loads, questions, entries, owners, spoiled, spoiled_owners } = self;
        vec![loads, questions, entries, owners, spoiled, spoiled_owners]
    }

    /// The owners of all lamps and of each, over states and columns of owners that no build made.
    fn over_spoiled_owners(&mut self, form: Form) {
        let mut source = Splitmix(1_115);
        for number in 0..form.of([4_000, 40_000]) {
            let build = spoiled::one(number, &mut source);
            let (what, owners) = spoiled::owners(&build, &mut source);
            let zoom = source.below(34) as u8;
            let about = || format!("{}, {what}, zoom {zoom}", build.name());
            self.spoiled_owners.compare(about, other_spoiled_owners(&build, &owners, zoom));
        }
    }

    /// One build of the Rust's, loaded by the package.
    fn build(&mut self, build: &Build, source: &mut Splitmix) {
        let (given, options) = (build.given(), as_options(&build.state.options));
        let lamps = match Supercluster::load(options, given.xs, given.ys, given.energies) {
            Ok(lamps) => lamps,
            Err(refused) => {
                return self.loads.compare(|| build.name(), Some(refused.to_string()));
            }
        };
        let mut other_columns = Other(None);
        build.columns.lent().read_beside(&as_lent(&lamps.columns()), &mut other_columns);
        let other_state = other("state", &as_state(&build.state), lamps.state());
        let owners = climbed(&build.state, &build.columns.lent()).unwrap_or_default();
        let other_column = other_column("owners", &owners, lamps.columns().owners);
        self.loads.compare(|| build.name(), other_state.or(other_columns.0).or(other_column));
        for question in asked::few(&build.scene(), source) {
            let about = || format!("{}, {question:?}", build.name());
            self.questions.compare(about, differs(&lamps.tables(), build, &question));
        }
        for zoom in build.state.coarsest()..=build.state.finest() {
            let about = || format!("{}, table {zoom}", build.name());
            self.entries.compare(about, other_entries(&lamps, build, zoom));
            self.owners.compare(about, other_owners(&lamps, build, zoom));
        }
    }
}

/// Where a column first is not the expected one, the two zeros being equal.
struct Other(Option<String>);

impl ReadBoth for Other {
    fn columns<T: Value>(&mut self, name: &'static str, expected: &[T], found: &[T]) {
        let is = |(one, other): (&T, &T)| one.bits() == other.bits() || one == other;
        let same = expected.len() == found.len() && expected.iter().zip(found).all(is);
        if self.0.is_none() && !same {
            self.0 = Some(format!("{name} is another"));
        }
    }
}

/// The package's columns as the oracle has them.
fn as_lent<'a>(columns: &lent::Columns<'a>) -> Lent<'a> {
    macro_rules! lent {
        ([$($entry:ident: $number:ty),*] [$($slot:ident: $kind:ty),*] $columns:ident) => {
            Lent { $($entry: $columns.$entry,)* $($slot: $columns.$slot,)* }
        };
    }
    columns::with_columns!(lent! columns)
}

/// What a question comes to, or the number of its refusal.
#[derive(Debug, PartialEq)]
enum Said {
    List(Result<Vec<u32>, u32>),
    Tile(Result<Vec<(u32, i64, i64)>, u32>),
    Number(Result<u64, u32>),
}

/// How the package's answer is not the reference's, if it is not.
fn differs(tables: &Tables, build: &Build, question: &Question) -> Option<String> {
    let expected = match question.answered(&build.state, &build.columns.lent()) {
        Outcome::List(answer) => Said::List(taken(answer.items, answer.refusal)),
        Outcome::Tile(answer) => {
            let items = answer.items.iter().map(|item| (item.place, item.x, item.y)).collect();
            Said::Tile(taken(items, answer.refusal))
        }
        Outcome::Number(number) => Said::Number(number.map_err(|refusal| refusal as u32)),
    };
    other("answer", expected, asked(tables, question))
}

/// The items, unless something refused them.
fn taken<T>(items: T, refusal: Option<questions::Refusal>) -> Result<T, u32> {
    refusal.map_or(Ok(items), |refusal| Err(refusal as u32))
}

/// What the package says.
fn asked(tables: &Tables, question: &Question) -> Said {
    let number = |refused: Refused| refused.number();
    match *question {
        Question::Box { zoom, corners } => {
            Said::List(tables.get_clusters(corners, zoom).map_err(number))
        }
        Question::Ring { zoom, circle: [x, y, radius] } => {
            Said::List(tables.ring(zoom, x, y, radius).map_err(number))
        }
        Question::Children { id } => Said::List(tables.get_children(id).map_err(number)),
        Question::Leaves { id, limit, offset } => {
            Said::List(tables.get_leaves(id, limit, offset).map_err(number))
        }
        Question::ExpansionZoom { id } => {
            let zoom = tables.get_cluster_expansion_zoom(id);
            Said::Number(zoom.map(u64::from).map_err(number))
        }
        Question::Tile { z, x, y } => {
            let items = tables.get_tile(z, x, y).map_err(number);
            let item = |item: reachvolem::TileItem| (item.place, item.x, item.y);
            Said::Tile(items.map(|items| items.into_iter().map(item).collect()))
        }
        Question::Tally { z, x, y } => Said::Number(tables.tally(z, x, y).map_err(number)),
    }
}

/// How a table, whole or entry by entry, is not that of the columns, if it is not.
fn other_entries(lamps: &Supercluster, build: &Build, zoom: usize) -> Option<String> {
    let lent = build.columns.lent().part(build.state.positions(zoom));
    let entry = |at| {
        let columns::Entry { x, y, seen, id, parent, num, energy } = lent.entry(at);
        Entry::from(lent::Entry { x, y, seen, id, parent, num, energy })
    };
    let count = lent.x.len();
    let expected: Vec<Entry> = (0..count).map(entry).collect();
    let single = |place| lamps.entry(zoom as u8, place);
    let singly: Result<Vec<Entry>, Refused> = (0..count as u32).map(single).collect();
    other("table", &Ok(&expected), &lamps.table(zoom as u8).as_ref())
        .or_else(|| other("entries", &Ok(&expected), &singly.as_ref()))
        .or_else(|| other("past the last", Err(Refused::NoCluster), single(count as u32)))
}

/// How the lamps that an entry owns are not its leaves, if they are not: of a lamp itself, of a cluster what the reference
/// lists.
fn other_owners(lamps: &Supercluster, build: &Build, zoom: usize) -> Option<String> {
    let lent = build.columns.lent();
    let mut expected = vec![None; build.state.count as usize];
    for (place, at) in build.state.positions(zoom).enumerate() {
        let (id, num) = (lent.id[at], lent.num[at]);
        let leaves = match num {
            1 => vec![id],
            _ => questions::leaves(&build.state, &lent, id, num, 0).items,
        };
        leaves.iter().for_each(|lamp| expected[*lamp as usize] = Some(place as u32));
    }
    let found = lamps.owners(zoom as u8).map(|owners| owners.into_iter().map(Some).collect());
    let one = |lamp| lamps.owner(lamp, zoom as u8);
    let singly = (0..lamps.count()).map(|lamp| one(lamp).map(Some)).collect();
    other("owners", &Ok(&expected), &found.as_ref())
        .or_else(|| other("owner", &Ok(&expected), &Result::as_ref(&singly)))
        .or_else(|| other("past the last", Err(Refused::Lamp), one(lamps.count())))
}

/// How the owners over a state and a column that no build made are not the reference's, if they are not: all of them, which one that
/// is refused spoils, and that of each lamp.
fn other_spoiled_owners(build: &Build, owners: &[u32], zoom: u8) -> Option<String> {
    let state = as_state(&build.state);
    let tables = Tables::lent(&state, lent::Columns { owners, ..lent::Columns::default() });
    let number = |refused: Refused| refused.number();
    let by_reference = |lamp| {
        let place = questions::owner(&build.state, owners, lamp, zoom);
        place.map(|place| place as u32).map_err(|refusal| refusal as u32)
    };
    // Where a state asks for more lamps than these it is out of bounds, or the column too short.
    let lamps = 0..build.state.count.min(1 << 20);
    let each = |lamp| other("owner", by_reference(lamp), tables.owner(lamp, zoom).map_err(number));
    let all: Result<Vec<u32>, u32> = match lamps.is_empty() {
        true => Err(11),
        false => lamps.clone().map(by_reference).collect(),
    };
    other("owners", all, tables.owners(zoom).map_err(number))
        .or_else(|| lamps.take(64).chain([build.state.count, u32::MAX]).find_map(each))
}
