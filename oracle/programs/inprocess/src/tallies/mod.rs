//! Tallies that add up over the tiles (#104): of many builds every tile of the zooms up to 6, beside the entries
//! whose centre it holds, and all tiles of a zoom beside N; and tables so large that few marks are tried first, as
//! they are and spoiled.
//!
//! That this can fail was tried in the short form of 3,122,976 cases, each time with a library that is wrong in one
//! thing and not kept here: with that of the code before #104, 2,827,117, 2,827, 230,365, 4 and 1,326 cases of the
//! five groups differ; with 1.0 in no tile 6,720, 1,778, 1, 1 and 0; with y tested by x 23,487, 2,235, 20,079, 4 and
//! 2,920; with few marks that take a place whose mark is there for counted 0, 0, 19,575, 4 and 2,290.

mod borders;
mod few;
mod sums;

use crate::{questions::port::ask, report::finish, Form};
use questions::{Lent, Out, Question, State};
use reachvolem::lent::Reply;
use splitmix::Splitmix;
use std::process::ExitCode;
use sums::Sums;

/// Runs every group.
pub fn run(form: Form) -> ExitCode {
    let mut source = Splitmix(104);
    let mut sums = Sums::new();
    borders::each(form, &mut source, |build| sums.compare(build));
    let mut groups = sums.told();
    groups.extend(few::run(form, &mut source));
    finish("tallies", groups)
}

/// The tally of a tile by the port.
fn port_says(state: &State, lent: &Lent, z: u8, x: u32, y: u32) -> Reply {
    let mut none = Out { places: &mut [], x: &mut [], y: &mut [] };
    ask(state, lent, &Question::Tally { z, x, y }, &mut none)
}
