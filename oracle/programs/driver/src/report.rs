//! Prints a line for each thing compared, counts, and ends with one line that a script can read.

use std::process::ExitCode;

/// What was compared so far.
#[derive(Default)]
pub struct Report {
    cases: usize,
    differences: usize,
    elsewhere: usize,
}

impl Report {
    /// One comparison: what, what was expected, what was found.
    pub fn compare(&mut self, what: &str, expected: &str, found: &str) {
        self.cases += 1;
        if expected == found {
            println!("ok         {what}");
        } else {
            self.differences += 1;
            println!("DIFFERENT  {what}: expected {expected}, found {found}");
        }
    }

    /// A line that the Rust has no answer to.
    pub fn not_the_rusts(&mut self, what: &str) {
        self.elsewhere += 1;
        println!("not the Rust's  {what}");
    }

    /// The last line, and the program's exit status.
    pub fn finish(self, name: &str) -> ExitCode {
        println!(
            "{name}: cases={} differences={} not_the_rusts={}",
            self.cases, self.differences, self.elsewhere
        );
        match self.differences {
            0 => ExitCode::SUCCESS,
            _ => ExitCode::FAILURE,
        }
    }
}
