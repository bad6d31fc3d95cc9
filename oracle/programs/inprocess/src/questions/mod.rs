//! The questions: over builds, and over states and columns that no build made. Over builds the judges are the Rust
//! and the reference written from the scope's text; over the others the reference, which `driver questions` holds to the
//! Rust there too.
//!
//! Beside the Rust nothing but the points and the questions is shared. The port loads the points and answers from
//! the columns that this left, which are held to the Rust's tables first; each Rust loads them itself, and where the
//! untouched one makes other tables for what its rings skip, it is given those of the patched one. Beside the
//! reference the reply, the carried number and every output column to its end are compared, in columns that are
//! longer than the answer, as long, shorter, and empty. Each question is asked twice; the second time every energy
//! is any number of 64 bits, and the answer has to be the same. With leaves that look at the highest bit of an
//! energy 54,824 cases differed, in the short form; with an energy column that 11 does not count 4,402.

pub mod both;
pub mod columns;
pub mod overlap;
pub mod port;
mod rust;
mod short;

use crate::{
    report::{finish, Group},
    Form,
};
use asked::{rooms, spoiled, Build, Scene};
use both::differs;
use questions::{Lent, Question};
use rust::BesideRust;
use short::Short;
use splitmix::Splitmix;
use std::process::ExitCode;

/// The names of the groups, in the order of the kinds.
const OVER_BUILDS: [&str; 7] = [
    "questions, box",
    "questions, ring",
    "questions, children",
    "questions, leaves",
    "questions, expansion zoom",
    "questions, tile",
    "questions, tally",
];
const OVER_SPOILED: [&str; 7] = [
    "questions, box over spoiled tables",
    "questions, ring over spoiled tables",
    "questions, children over spoiled tables",
    "questions, leaves over spoiled tables",
    "questions, expansion over spoiled tables",
    "questions, tile over spoiled tables",
    "questions, tally over spoiled tables",
];

/// Runs every group, over so many builds and so many spoiled tables.
pub fn run(over_builds: Form, over_spoiled: Form) -> ExitCode {
    // The questions are those that `driver questions` asks: the columns have a generator of their own. They are
    // copied before they are lent: a copy has no room behind it, so that the address sanitizer sees their ends.
    let (mut source, mut lengths) = (Splitmix(1), Splitmix(2));
    let mut builds = OVER_BUILDS.map(Group::new);
    let (mut beside, mut short) = (BesideRust::new(), Short::new());
    asked::each(over_builds, &mut source, |build, source| {
        // Past the tables the columns hold what belongs to none.
        let mut columns = build.columns.clone();
        asked::lengthen(&mut columns, &mut lengths);
        let columns = columns.clone();
        let scene = Scene { lent: columns.lent(), ..build.scene() };
        let questions = asked::many(&build.scene(), source);
        compare(build, &scene, &questions, &mut lengths, &mut builds);
        beside.compare(build, &questions);
        short.compare(build, &questions);
    });
    let mut spoiled = OVER_SPOILED.map(Group::new);
    spoiled::each(over_spoiled, &mut source, |build, source| {
        let questions = asked::few(&build.scene(), source);
        let columns = build.columns.clone();
        let scene = Scene { lent: columns.lent(), ..build.scene() };
        compare(build, &scene, &questions, &mut lengths, &mut spoiled);
    });
    let groups = beside.told().into_iter().chain(builds).chain([short.told()]).chain(spoiled);
    finish("questions", groups.collect())
}

/// Compares the answers to these questions, each with two sets of output columns; the second time every energy is any.
fn compare(
    build: &Build,
    scene: &Scene,
    questions: &[Question],
    lengths: &mut Splitmix,
    groups: &mut [Group],
) {
    let mut source = Splitmix(scene.lent.energy.len() as u64);
    let energies: Vec<u64> = scene.lent.energy.iter().map(|_| source.bits()).collect();
    let other = Scene { lent: Lent { energy: &energies, ..scene.lent }, ..*scene };
    for question in questions {
        let outcome = question.answered(scene.state, &scene.lent);
        for scene in [scene, &other] {
            let rooms = rooms(outcome.length(), lengths);
            let about = || format!("{}, {question:?}, {rooms:?}", build.name());
            let difference = differs(scene, question, &outcome, &rooms);
            groups[question.kind()].compare(about, difference);
        }
    }
}
