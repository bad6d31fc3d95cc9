//! The benchmark: both sides in one run on the machine at hand, a table of times and ratios.

mod clock;
mod effort;
mod index;
mod load;
mod memory;
mod owners;
mod points;
mod port;
mod questions;
mod rounds;
mod table;

use std::{env, process::ExitCode};

/// How large the benchmark is.
pub struct Size {
    /// Of an index: how many points, and how many rounds.
    pub points: usize,
    pub rounds: usize,
    /// By what the number of queries in a measurement is divided.
    pub fewer: usize,
    /// Of the builds of the tables: how many points, and how many rounds.
    pub loads: &'static [[usize; 2]],
    /// Of two more that are loaded and not asked: a small one, and one of points that are all close to each other.
    pub small: [usize; 2],
    pub crowded: [usize; 2],
}

const WHOLE: Size = Size {
    points: 1_000_000,
    rounds: 11,
    fewer: 1,
    loads: &[[10_000, 11], [100_000, 7], [1_000_000, 5]],
    small: [1_000, 41],
    crowded: [100_000, 11],
};
const QUICK: Size = Size {
    points: 100_000,
    rounds: 5,
    fewer: 10,
    loads: &[[10_000, 5]],
    small: [1_000, 5],
    crowded: [10_000, 5],
};

fn main() -> ExitCode {
    let words: Vec<String> = env::args().skip(1).collect();
    let words: Vec<&str> = words.iter().map(String::as_str).collect();
    let size = match words.as_slice() {
        [] => WHOLE,
        ["--quick"] => QUICK,
        ["--load"] => return ended(load::run(&WHOLE)),
        ["--questions"] => return ended(questions::run(&WHOLE)),
        ["--effort"] => return ended(effort::run(&WHOLE)),
        ["--owners"] => return ended(owners::run(&WHOLE)),
        // What the benchmark runs of itself, in a process of its own.
        ["peak", side, shape, count] => return peak(side, shape, count),
        _ => {
            return usage();
        }
    };
    let parts = [index::run, load::run, questions::run, effort::run, owners::run];
    ended(parts.iter().try_for_each(|part| part(&size)))
}

/// The exit status of what was measured: a difference between the two sides is an error.
fn ended(measured: Result<(), String>) -> ExitCode {
    match measured {
        Ok(()) => ExitCode::SUCCESS,
        Err(difference) => {
            println!("DIFFERENT  {difference}");
            ExitCode::FAILURE
        }
    }
}

/// Prints the peak memory of one load.
fn peak(side: &str, shape: &str, count: &str) -> ExitCode {
    match load::peak(side, shape, count) {
        Some(peak) => {
            println!("{peak}");
            ExitCode::SUCCESS
        }
        None => usage(),
    }
}

fn usage() -> ExitCode {
    eprintln!("usage: bench [--quick | --load | --questions | --effort | --owners]");
    ExitCode::from(2)
}
