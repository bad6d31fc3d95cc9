//! The reference beside the Rust over tables that no build made.

use super::over::Over;
use asked::{spoiled, Form};
use beside::Beside;
use splitmix::Splitmix;

/// The names of the groups.
const NAMES: [&str; 6] = [
    "box, reference over lent tables",
    "ring, reference over lent tables",
    "children, reference over lent tables",
    "leaves, reference over lent tables",
    "expansion zoom, reference over lent tables",
    "tile, reference over lent tables",
];

/// A few questions to each of the spoiled states that are whole.
pub fn run(form: Form, source: &mut Splitmix) -> Beside {
    let mut beside = Beside::new("lent tables asked", &NAMES);
    spoiled::each(form, source, |build, source| {
        let questions = asked::few(&build.scene(), source);
        let Some(over) = Over::of(build) else {
            return;
        };
        for question in questions {
            let outcome = question.answered(&build.state, &build.columns.lent());
            if let Some(verdict) = over.judged(question, &outcome) {
                beside.count(verdict, &question, || format!("{}, {question:?}", build.name()));
            }
        }
        beside.builds += 1;
    });
    beside
}
