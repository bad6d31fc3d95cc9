//! States and columns that no build made: tables of clusters by chance, builds and such tables with something
//! changed in them. Many are still in order as far as a question looks.
//!
//! There are 20,000 of them, in the full form 200,000, and two of 1,048,576 and 1,048,577 lamps; the large builds
//! are asked again after changes of their slots, twelve changes one after the other. A test counts that every reply
//! of every question is come to.

mod chance;
mod entries;
mod most;
mod owners;
mod posts;
mod slots;
mod states;

pub use most::states as most;
pub use owners::owners;
pub use posts::{posts, Posts, Reading, UNCHANGED};

use crate::{large, lengthen, Build, Form};
use options::{corners, Options};
use splitmix::Splitmix;

/// A change of a state or of its columns.
type Change = fn(&mut Build, &mut Splitmix);

/// The changes, by their names.
const CHANGES: [(&str, Change); 23] = [
    ("a length", states::length),
    ("a start", states::start),
    ("the count", states::count),
    ("all starts", states::all_starts),
    ("tables cut otherwise", states::cut_otherwise),
    ("zooms that are not built", states::not_built),
    ("an option out of bounds", states::out_of_bounds),
    ("another option", states::another_option),
    ("another option", states::another_option),
    ("the zooms", states::zooms),
    ("a column too short", states::short_column),
    ("coordinates of entries", entries::coordinates),
    ("ids", entries::ids),
    ("ids", entries::ids),
    ("parents", entries::parents),
    ("parents", entries::parents),
    ("sole children", entries::sole_children),
    ("nums", entries::nums),
    ("marks", entries::marks),
    ("energies", entries::energies),
    ("coordinates of slots", slots::coordinates),
    ("slots past the table", slots::past_the_table),
    ("slots named twice", slots::named_twice),
];

/// How many states there are beside those with the most lamps and the large ones, in the short form and in the full one.
const STATES: [usize; 2] = [20_000, 200_000];

/// How often a large build is changed, and how often it is asked after each change.
const LARGE_CHANGES: usize = 12;
const LARGE_TIMES: usize = 10;

/// Every spoiled state of a form.
pub fn each(form: Form, source: &mut Splitmix, mut ask: impl FnMut(&Build, &mut Splitmix)) {
    most().iter().for_each(|build| ask(build, source));
    large::each(form, source, |build, source| changed_slots(build, source, &mut ask));
    for number in 0..form.of(STATES) {
        ask(&one(number, source), source);
    }
}

/// The same without the large builds.
pub fn small(form: Form, source: &mut Splitmix, mut ask: impl FnMut(&Build, &mut Splitmix)) {
    most().iter().for_each(|build| ask(build, source));
    for number in 0..form.of(STATES) {
        ask(&one(number, source), source);
    }
}

/// A large build, asked a few times after each change of its index.
fn changed_slots(
    mut build: Build,
    source: &mut Splitmix,
    ask: &mut impl FnMut(&Build, &mut Splitmix),
) {
    let changes: [(&str, Change); 4] = [
        ("places of slots past the table", slots::past_the_table),
        ("coordinates of entries", entries::coordinates),
        ("coordinates of slots", slots::coordinates),
        ("slots named twice", slots::named_twice),
    ];
    for (name, change) in changes.iter().cycle().take(LARGE_CHANGES) {
        change(&mut build, source);
        build.what += ", ";
        build.what += name;
        (0..LARGE_TIMES).for_each(|_| ask(&build, source));
    }
}

/// A state with a number for its name: what it is made of is changed once, or not at all, or up to three times.
pub fn one(number: usize, source: &mut Splitmix) -> Build {
    let mut build = base(source);
    lengthen(&mut build.columns, source);
    let mut what = format!("spoiled {number}: {}", build.what);
    for _ in 0..source.pick(&[0, 1, 1, 1, 1, 1, 2, 3]) {
        let (name, change) = source.pick(&CHANGES);
        change(&mut build, source);
        what += ", ";
        what += name;
    }
    build.what = what;
    build
}

/// A build of a few points, or tables by chance.
fn base(source: &mut Splitmix) -> Build {
    match source.below(3) {
        0 => {
            let count = source.pick(&[1, 2, 3, 4, 6, 9, 14, 22]);
            let [min_zoom, max_zoom] =
                source.pick(&[[0, 0], [0, 1], [0, 3], [1, 2], [2, 6], [0, 30]]);
            let ordinary = corners::ordinary(source);
            Build::made(Options { min_zoom, max_zoom, ..ordinary }, count, source)
        }
        1 => chance::wide(source),
        _ => chance::deep(source),
    }
}
