//! The index: its build, both searches and their cursors, what they refuse, rings at rounded edges, and columns that
//! no build made.
//!
//! | group | judge |
//! |---|---|
//! | build | the patched Rust; up to 601 slots the untouched one too |
//! | range, within | the patched Rust's searches |
//! | cursor | the reference, and the list for the ids |
//! | refusals | the reference; the patched Rust for what is not refused |
//! | beside the untouched Rust | its searches over the same columns: a box is the same, a ring lacks only what is cut off |
//! | rings at rounded edges | a plain scan by the rounded squared distance; for the order the patched Rust |
//! | damaged columns | the reference |
//! | the reference beside the Rust | the patched Rust's searches, on every query of the other groups |
//!
//! Held to it are every id, the bits of every coordinate, the reply, and the columns with their old contents, in
//! columns that are longer than the answer, as long, one shorter, and empty. In 3,435 of the million rings the
//! untouched Rust skips an entry.

mod arrangement;
mod damaged;
mod queries;
mod reference;
mod refusals;
mod rings;
mod rust;
mod searches;
mod untouched;

use crate::{
    report::{finish, Group},
    Form,
};
use points::{Points, SHAPES};
use reachvolem::lent::Index as Lent;
use searches::Searches;
use splitmix::Splitmix;
use std::process::ExitCode;
use untouched::BesideUntouched;

/// Node sizes: the least, odd and even, the usual one, the greatest.
const NODE_SIZES: [usize; 6] = [1, 2, 3, 8, 64, 65_535];

/// A range of numbers of points, and how many queries each of their indexes is asked.
type Sizes = (Vec<usize>, usize);

/// Runs every group.
pub fn run(form: Form) -> ExitCode {
    let mut source = Splitmix(1);
    let mut built = Group::new("index, build");
    let mut searches = Searches::new("index, range", "index, within", "index, cursor");
    let mut judged = Group::new("index, the reference beside the Rust");
    let mut untouched = BesideUntouched::new("index, searches beside the untouched Rust");
    for (counts, queries) in sizes(form) {
        for count in counts {
            for shape in SHAPES {
                let points = points::made(shape, count, &mut source);
                for node_size in NODE_SIZES {
                    let plan = Plan { node_size, points: &points, queries };
                    let groups = Groups {
                        built: &mut built,
                        searches: &mut searches,
                        judged: &mut judged,
                        untouched: &mut untouched,
                    };
                    one_index(&plan, &mut source, groups);
                }
            }
        }
    }
    let at_edges = rings::run(form, &mut built, &mut judged);
    let mut groups = vec![built];
    groups.extend(searches.groups());
    groups.push(untouched.told());
    groups.extend(at_edges);
    groups.push(refusals::of_builds());
    groups.push(refusals::of_searches());
    groups.extend(damaged::run(form, &mut judged));
    groups.push(judged);
    finish("index", groups)
}

/// Small numbers of points, each; those around the window block's bound; large ones.
fn sizes(form: Form) -> Vec<Sizes> {
    match form {
        Form::Short => vec![
            ((1..=200).collect(), 16),
            ((597..=606).collect(), 16),
            (vec![1_000, 4_097, 20_000, 50_000], 16),
        ],
        Form::Full => vec![
            ((1..=200).collect(), 128),
            ((590..=620).collect(), 64),
            ((201..=1_500).step_by(7).collect(), 32),
            (vec![4_095, 4_096, 4_097, 10_000, 50_000, 100_000, 300_000], 48),
            (vec![1_048_576], 32),
        ],
    }
}

/// One index: its points and node size, and how many queries it is asked.
struct Plan<'a> {
    node_size: usize,
    points: &'a Points,
    queries: usize,
}

/// Where its comparisons are counted.
struct Groups<'a> {
    built: &'a mut Group,
    searches: &'a mut Searches,
    judged: &'a mut Group,
    untouched: &'a mut BesideUntouched,
}

/// Compares the build of one index, then the searches over it.
fn one_index(plan: &Plan, source: &mut Splitmix, groups: Groups) {
    let Groups { built, searches, judged, untouched } = groups;
    let Plan { node_size, points, queries } = *plan;
    let about = format!("{}, node_size {node_size}", points.name());
    let tail = source.below(4) as usize;
    let arranged = arrangement::compare(node_size, points, tail, &about, built);
    let (ids, coords) = arranged.lengthened(tail);
    let lent = Lent { node_size, count: points.xs.len(), ids: &ids, coords: &coords };
    let (rust, bare) = (rust::Patched::over(&lent), rust::Untouched::over(&lent));
    for query in queries::around(&lent, 0..queries, source) {
        let about = || format!("{about}, {query:?}");
        let slots = reference::slots(&lent, &query);
        let places = rust.places(&query);
        judged.compare(about, searches::other_places(&lent, &slots, &places));
        untouched.compare(&points.xs, &points.ys, &query, &places, &bare, about);
        searches.compare(&lent, &query, &slots, &places, about);
        searches.compare_any_slot(&lent, &query, source, about);
    }
}
