//! The port beside the Rust: each loads the points of a build itself, and answers from its own tables.

use super::port::Port;
use asked::Build;
use beside::{Beside, Case, Rusts, Verdict};
use group_counts::Group;
use questions::Question;

/// The names of the groups, in the order of the kinds.
const NAMES: [&str; 7] = [
    "questions, box beside the Rust",
    "questions, ring beside the Rust",
    "questions, children beside the Rust",
    "questions, leaves beside the Rust",
    "questions, expansion zoom beside the Rust",
    "questions, tile beside the Rust",
    "questions, tally beside the Rust",
];

/// What was compared so far; how many builds the Rusts with the window block were asked of too, and of how many of
/// these the untouched one makes other tables.
pub struct BesideRust {
    beside: Beside,
    by_three: usize,
    skips: usize,
}

impl BesideRust {
    pub fn new() -> BesideRust {
        let beside = Beside::new("builds beside the Rust", &NAMES);
        BesideRust { beside, by_three: 0, skips: 0 }
    }

    /// These questions to one build.
    pub fn compare(&mut self, build: &Build, questions: &[Question]) {
        let (port, rusts) = (Port::loaded(build), Rusts::loaded(build));
        for question in questions {
            let verdict = match &port {
                Ok(port) => judged(port, &rusts, question),
                Err(difference) => Verdict::Different(difference.clone()),
            };
            self.beside.count(verdict, question, || format!("{}, {question:?}", build.name()));
        }
        self.beside.builds += 1;
        self.by_three += usize::from(rusts.are_three());
        self.skips += usize::from(rusts.skip_in_tables());
    }

    /// Says how much there was; the groups.
    pub fn told(self) -> Vec<Group> {
        let groups = self.beside.told();
        println!("builds beside the ringed and the untouched Rust too: {}", self.by_three);
        println!("differences of tables listed under E5: {}", self.skips);
        groups
    }
}

/// Holds the port's answer to the Rust's.
fn judged(port: &Port, rusts: &Rusts, question: &Question) -> Verdict {
    let case = Case { state: &port.state, lent: port.lent(), question: *question };
    match port.answered(question) {
        Ok(outcome) => rusts.judged(&case, &outcome),
        Err(how) => Verdict::Different(how),
    }
}
