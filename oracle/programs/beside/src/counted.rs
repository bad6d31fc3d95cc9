//! What was compared with the Rust: a group for each kind of question, and how often a listed difference.

use crate::Verdict;
use group_counts::Group;
use questions::Question;
use std::collections::BTreeMap;

/// What was compared so far.
pub struct Beside {
    what: &'static str,
    groups: Vec<Group>,
    listed: BTreeMap<&'static str, usize>,
    pub builds: usize,
}

impl Beside {
    /// Nothing yet: what the builds are, and the names of the groups in the order of the kinds.
    pub fn new(what: &'static str, names: &[&'static str]) -> Beside {
        let groups = names.iter().map(|name| Group::new(name)).collect();
        Beside { what, groups, listed: BTreeMap::new(), builds: 0 }
    }

    /// One question, and on what it was asked.
    pub fn count(&mut self, verdict: Verdict, question: &Question, about: impl FnOnce() -> String) {
        let difference = match verdict {
            Verdict::Same => None,
            Verdict::Listed(code) => {
                *self.listed.entry(code).or_default() += 1;
                None
            }
            Verdict::Different(how) => Some(how),
        };
        self.groups[question.kind()].compare(about, difference);
    }

    /// Says how many builds there were, and how often a listed difference; the groups.
    pub fn told(self) -> Vec<Group> {
        println!("{}: {}", self.what, self.builds);
        for (code, times) in &self.listed {
            println!("differences listed under {code}: {times}");
        }
        self.groups
    }
}
