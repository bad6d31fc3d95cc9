//! The driver of the comparison: puts questions to the builds of the Rust, and makes the vectors.
//!
//! - `worked`: SCOPE's worked lines that the Rust can answer, against the untouched, the ringed and the patched build.
//!   A line that it cannot answer, or that a request changed, is counted as `not the Rust's`.
//! - `differences PAGE`: every row of docs/DIFFERENCES.md, for the profile that the driver is built with. The page
//!   holds the outcomes, `differences` the inputs, under the same codes. A case that could end its process, or not
//!   end at all, runs in a process of its own (`case CODE BUILD`), with 20 seconds and 4 GiB.
//! - `range-vectors`, `index-vectors`, `load-vectors`, `lister-vectors`, `question-vectors`: test vectors on
//!   standard output, in the form that the head of their file says. With `--fresh N` there are N texts other than
//!   are stored.
//! - `lister`: what the reference prints for the text on standard input. `lister-program PROGRAM` runs a program of
//!   the table lister, a process for each text, and compares what it prints.
//! - `questions`: the reference of the questions beside the patched Rust.
//!
//! What compares prints a line for each thing or group, and last a line with the counts. The exit status is 1 if
//! anything differs.

mod attempt;
mod differences;
mod index_vectors;
mod worked_lines;
mod lister_vectors;
mod listing;
mod load_vectors;
mod plain;
mod question_vectors;
mod questions;
mod range_vectors;
mod report;

use asked::Form;
use std::{
    env, fs,
    io::{self, BufWriter, StdoutLock},
    process::ExitCode,
};

const USAGE: &str = "usage: driver worked
       driver differences PAGE
       driver range-vectors [--count N] [--seed S]
       driver index-vectors
       driver load-vectors
       driver lister-vectors [--fresh N]
       driver lister
       driver lister-program PROGRAM [--full]
       driver question-vectors
       driver questions [--full]";

fn main() -> ExitCode {
    attempt::silence();
    let words: Vec<String> = env::args().skip(1).collect();
    let words: Vec<&str> = words.iter().map(String::as_str).collect();
    match words.as_slice() {
        ["worked"] => worked_lines::run(),
        ["differences", page] => match fs::read_to_string(page) {
            Ok(text) => differences::run(&text),
            Err(why) => fail(&format!("{page}: {why}")),
        },
        ["case", code, build] => differences::run_one(code, build),
        ["range-vectors", rest @ ..] => match range_vectors::Wanted::parse(rest) {
            Some(wanted) => written(|out| range_vectors::write(&wanted, out)),
            None => fail(USAGE),
        },
        ["index-vectors"] => written(|out| index_vectors::write(out)),
        ["load-vectors"] => written(|out| load_vectors::write(out)),
        ["lister-vectors"] => written(|out| lister_vectors::write(out)),
        ["lister-vectors", "--fresh", count] => match count.parse() {
            Ok(count) => written(|out| lister_vectors::write_fresh(count, out)),
            Err(_) => fail(USAGE),
        },
        ["lister"] => written(|out| listing::list(out)),
        ["lister-program", program] => listing::judge(program, 1_000),
        ["lister-program", program, "--full"] => listing::judge(program, 50_000),
        ["question-vectors"] => written(|out| question_vectors::write(out)),
        ["questions"] => questions::run(Form::Short),
        ["questions", "--full"] => questions::run(Form::Full),
        _ => fail(USAGE),
    }
}

/// Writes vectors or tables to standard output.
fn written(write: impl FnOnce(&mut BufWriter<StdoutLock>) -> io::Result<()>) -> ExitCode {
    match write(&mut BufWriter::new(io::stdout().lock())) {
        Ok(()) => ExitCode::SUCCESS,
        Err(why) => {
            eprintln!("standard output: {why}");
            ExitCode::FAILURE
        }
    }
}

/// Ends with a word on why nothing was run.
fn fail(why: &str) -> ExitCode {
    eprintln!("{why}");
    ExitCode::from(2)
}
