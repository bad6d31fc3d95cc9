//! Columns one entry too short: of small builds each column in turn, and a question of each kind. A box and a ring are
//! lent no more than the index, and answer whatever the others hold.

use super::both::differs;
use crate::report::Group;
use asked::{Build, Scene};
use columns::{width, NAMES};
use questions::Question;

/// The most points of a build of which columns are cut.
const POINTS: u32 = 40;

/// What was compared so far.
pub struct Short(Group);

impl Short {
    pub fn new() -> Short {
        Short(Group::new("questions, a column one entry short"))
    }

    /// Every column of a build, cut to what its tables have less one.
    pub fn compare(&mut self, build: &Build, questions: &[Question]) {
        if build.state.count > POINTS {
            return;
        }
        let whole = build.scene();
        for (at, name) in NAMES.iter().enumerate() {
            let mut lengths = whole.lent.lengths();
            lengths[at] -= width(name);
            let scene = Scene { lent: whole.lent.fronts(lengths), ..whole };
            for question in one_of_each(questions) {
                let outcome = question.answered(scene.state, &scene.lent);
                let rooms = [outcome.length() + 1; 3];
                let about = || format!("{}, {name} cut, {question:?}", build.name());
                self.0.compare(about, differs(&scene, question, &outcome, &rooms));
            }
        }
    }

    pub fn told(self) -> Group {
        self.0
    }
}

/// The first question of each kind.
fn one_of_each(questions: &[Question]) -> impl Iterator<Item = &Question> {
    (0..7).filter_map(|kind| questions.iter().find(|question| question.kind() == kind))
}
