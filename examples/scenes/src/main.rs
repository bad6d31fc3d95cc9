//! Makes the inputs of the examples, each from a fixed seed: `scenes street|village|city`. Only sums, products,
//! quotients and square roots are taken, so that every machine makes the same. The energies are made up: what lamps
//! use in a night.

mod city;
mod road;
mod scene;
mod street;
mod village;

use scene::Scene;
use std::{env, process::ExitCode};

fn main() -> ExitCode {
    let words: Vec<String> = env::args().skip(1).collect();
    let words: Vec<&str> = words.iter().map(String::as_str).collect();
    let scene: Scene = match words.as_slice() {
        ["street"] => street::scene(),
        ["village"] => village::scene(),
        ["city"] => city::scene(),
        _ => {
            eprintln!("usage: scenes street|village|city");
            return ExitCode::from(2);
        }
    };
    print!("{}", scene.text());
    ExitCode::SUCCESS
}
