//! Draws the tables that the lister prints, from standard input to standard output: a panel for each zoom, the
//! finest first. Finds the owner of each entry in the next table, and fails where there is none. A large circle
//! shows its cluster's energy in kWh below its count, and each panel the sum of its table, which is the same in all.

mod panel;
mod sheet;
mod tables;

use std::{
    io::{self, Read, Write},
    process::ExitCode,
};

fn main() -> ExitCode {
    match drawn() {
        Ok(()) => ExitCode::SUCCESS,
        Err(why) => {
            eprintln!("draw: {why}");
            ExitCode::FAILURE
        }
    }
}

fn drawn() -> Result<(), String> {
    let mut text = String::new();
    io::stdin().read_to_string(&mut text).map_err(|why| format!("standard input: {why}"))?;
    let picture = sheet::picture(&tables::read(&text)?)?;
    io::stdout().write_all(picture.as_bytes()).map_err(|why| format!("standard output: {why}"))
}
