//! Leaves by limit and offset: of every cluster of many small builds, beside the Rust; and limit 0 over tables that
//! no build made, beside the reference. The count as limit must list what the Rust lists at limit 0 and offset 0,
//! which is all; limit 0 must list nothing (#101); every page of every size must be the Rust's, and all of a
//! size its whole list (#112).
//!
//! That this can fail was tried in the short form: with a library that lists all at limit 0, 13,604 of 68,020 cases
//! at limit 0 differed, as many as have offset 0, and 9,511 of 80,488 over spoiled tables; with the count less 1 as
//! limit, 13,604 of 13,604. With an offset one larger every page differed, and with a column one entry short 287,733
//! of 367,318; of pages past the end 120,050 of 600,250, where one offset was the count less 1.

mod limits;
mod pages;
mod small;
mod spoiled;

use crate::{report::finish, Form};
use limits::Limits;
use pages::Pages;
use small::Both;
use splitmix::Splitmix;
use std::process::ExitCode;

/// Runs every group.
pub fn run(form: Form) -> ExitCode {
    let mut source = Splitmix(1);
    let (mut limits, mut pages) = (Limits::new(), Pages::new());
    let builds = small::each(form, &mut source, |both| {
        limits.compare(both);
        pages.compare(both);
    });
    println!("small builds with a cluster: {builds}");
    let mut groups = limits.told();
    groups.extend(pages.told());
    groups.push(spoiled::run(form, &mut source));
    finish("leaves", groups)
}
