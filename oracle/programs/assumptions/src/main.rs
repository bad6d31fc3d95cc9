//! Reads a module in LLVM's text on standard input and writes it with its assumptions checked; says on standard
//! error how many checks of each kind there are. A check that fails prints `line N of the module: an assumption does
//! not hold` and traps.

use std::{
    io::{self, Read},
    process::ExitCode,
};

fn main() -> ExitCode {
    let mut text = String::new();
    if let Err(error) = io::stdin().read_to_string(&mut text) {
        eprintln!("{error}");
        return ExitCode::FAILURE;
    }
    match assumptions::checked(&text) {
        Ok(checked) => {
            print!("{}", checked.text);
            checked.counts.iter().for_each(|(kind, count)| eprintln!("{count} {kind}"));
            ExitCode::SUCCESS
        }
        Err(error) => {
            eprintln!("{error}");
            ExitCode::FAILURE
        }
    }
}
