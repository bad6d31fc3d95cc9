//! The comparison in one process: the proved library, linked in, beside the builds of the Rust. Differences are
//! printed, the first five of each group; then come a line for each group with its counts and a last line for all.
//! The exit status is 1 if anything differs. Every random case is from a fixed seed, so that two runs compare the
//! same. The head of each part says who is the judge, and how it was tried that it can fail.

mod effort;
mod index;
mod leaves;
mod owners;
mod package;
mod posts;
mod questions;
mod tables;
mod tallies;

use asked::Form;
use group_counts as report;
use std::{env, process::ExitCode};

const USAGE: &str =
    "usage: inprocess index|tables|questions|overlap|leaves|effort|tallies|owners|posts|package [--full], or questions --spoiled";

/// How many entries stand behind a lent column, out of the callee's reach.
const GUARD: usize = 2;

fn main() -> ExitCode {
    let words: Vec<String> = env::args().skip(1).collect();
    let words: Vec<&str> = words.iter().map(String::as_str).collect();
    match words.as_slice() {
        ["index"] => index::run(Form::Short),
        ["index", "--full"] => index::run(Form::Full),
        ["tables"] => tables::run(Form::Short),
        ["tables", "--full"] => tables::run(Form::Full),
        ["questions"] => questions::run(Form::Short, Form::Short),
        ["questions", "--spoiled"] => questions::run(Form::Short, Form::Full),
        ["questions", "--full"] => questions::run(Form::Full, Form::Full),
        ["overlap"] => questions::overlap::run(Form::Short),
        ["overlap", "--full"] => questions::overlap::run(Form::Full),
        ["leaves"] => leaves::run(Form::Short),
        ["leaves", "--full"] => leaves::run(Form::Full),
        ["effort"] => effort::run(Form::Short),
        ["effort", "--full"] => effort::run(Form::Full),
        ["tallies"] => tallies::run(Form::Short),
        ["tallies", "--full"] => tallies::run(Form::Full),
        ["owners"] => owners::run(Form::Short),
        ["owners", "--full"] => owners::run(Form::Full),
        ["posts"] => posts::run(Form::Short),
        ["posts", "--full"] => posts::run(Form::Full),
        ["package"] => package::run(Form::Short),
        ["package", "--full"] => package::run(Form::Full),
        _ => {
            eprintln!("{USAGE}");
            ExitCode::from(2)
        }
    }
}
