//! Counts what is compared, group by group. Only differences are printed, the first few of each group,
//! and at the end the counts, in lines that a script can read.

use std::{fmt::Debug, process::ExitCode};

/// How many differences of a group are shown; the others are only counted.
const SHOWN: usize = 5;

/// A group of comparisons.
pub struct Group {
    name: &'static str,
    cases: usize,
    differences: usize,
}

impl Group {
    pub fn new(name: &'static str) -> Group {
        Group { name, cases: 0, differences: 0 }
    }

    /// One comparison: on what, and how the two differ, if they do.
    pub fn compare(&mut self, what: impl FnOnce() -> String, difference: Option<String>) {
        self.cases += 1;
        if let Some(difference) = difference {
            self.differences += 1;
            if self.differences <= SHOWN {
                println!("DIFFERENT  {}: {}: {difference}", self.name, what());
            }
        }
    }

    /// The line of this group. A group in which nothing was compared counts as a difference.
    fn close(&mut self) {
        if self.cases == 0 {
            self.differences += 1;
        }
        println!("{}: cases={} differences={}", self.name, self.cases, self.differences);
    }
}

/// A line for each group, a last line for all of them, and the program's exit status.
pub fn finish(name: &str, mut groups: Vec<Group>) -> ExitCode {
    groups.iter_mut().for_each(Group::close);
    let cases: usize = groups.iter().map(|group| group.cases).sum();
    let differences: usize = groups.iter().map(|group| group.differences).sum();
    println!("{name}: cases={cases} differences={differences} groups={}", groups.len());
    match differences {
        0 => ExitCode::SUCCESS,
        _ => ExitCode::FAILURE,
    }
}

/// How a value is not the expected one, if it is not.
pub fn other<T: PartialEq + Debug>(name: &str, expected: T, found: T) -> Option<String> {
    (expected != found).then(|| format!("{name}: expected {expected:?}, found {found:?}"))
}

/// Where a column first is not the expected one, if it is not.
pub fn other_column<T: PartialEq + Debug>(
    name: &str,
    expected: &[T],
    found: &[T],
) -> Option<String> {
    let differ = expected.iter().zip(found).position(|(expected, found)| expected != found);
    match differ {
        Some(at) => other(&format!("{name}[{at}]"), &expected[at], &found[at]),
        None => other(&format!("length of {name}"), expected.len(), found.len()),
    }
}
