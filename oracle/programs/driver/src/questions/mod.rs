//! The reference of the questions beside the patched Rust: every question to many builds. What they differ in must
//! be listed in docs/DIFFERENCES.md, and is counted by its codes.
//!
//! The builds are those of `asked`; docs/COMPARISON.md has their number. Over lent tables, which are put into the
//! Rust's public fields, the same is asked without the tally.

mod lent;
mod over;

pub use over::Over;

use asked::{Build, Form};
use beside::{judge::Patched, Beside, Case, Rust};
use group_counts::finish;
use splitmix::Splitmix;
use std::process::ExitCode;

/// Runs every group: over builds, and over tables that no build made.
pub fn run(form: Form) -> ExitCode {
    let mut source = Splitmix(1);
    let mut beside = Beside::new("builds asked", &NAMES);
    asked::each(form, &mut source, |build, source| ask(build, source, &mut beside));
    let mut groups = beside.told();
    groups.extend(lent::run(form, &mut source).told());
    finish("questions", groups)
}

/// The names of the groups, in the order of the kinds.
const NAMES: [&str; 7] = [
    "box, reference beside the Rust",
    "ring, reference beside the Rust",
    "children, reference beside the Rust",
    "leaves, reference beside the Rust",
    "expansion zoom, reference beside the Rust",
    "tile, reference beside the Rust",
    "tally, reference beside the Rust",
];

/// Every question to one build.
fn ask(build: &Build, source: &mut Splitmix, beside: &mut Beside) {
    let rust = Rust::<Patched>::loaded(build);
    let scene = build.scene();
    for question in asked::many(&scene, source) {
        let case = Case { state: scene.state, lent: scene.lent, question };
        let outcome = question.answered(case.state, &case.lent);
        let verdict = case.beside(&outcome, &rust, build);
        beside.count(verdict, &question, || format!("{}, {question:?}", build.name()));
    }
    beside.builds += 1;
}
