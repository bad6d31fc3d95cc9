//! The owner of a lamp (#109), read from the column that a build leaves: every lamp at every zoom of many builds, and states and columns
//! that no build made. The column itself is held to its judges in `tables`.
//!
//! Over builds the judges are the climb in the patched Rust's own tables, and the lamps that this Rust lists for each entry; the port
//! answers from the columns that its own build left. Over the others it is the reference, written from the scope. The column is lent
//! just as long as it has to be, longer, with something else behind it, and short. Before a call the place holds another number, so that
//! a refusal that leaves it shows.
//!
//! That this can fail was tried, in the short form of 10,779,920 cases, with libraries that are wrong in one thing and not kept here:
//! with 16 before 11 935,770 cases differ; with a zoom below min_zoom that is answered from the finest table 30,366; with any place
//! answered that a column of full length has, whatever the state and the table's length, 84,166.

mod builds;
mod spoiled;

use crate::{
    package,
    report::{finish, other},
    Form,
};
use builds::Builds;
use questions::State;
use reachvolem::lent::Reply;
use splitmix::Splitmix;
use std::process::ExitCode;

/// Runs every group.
pub fn run(form: Form) -> ExitCode {
    let mut builds = Builds::new();
    asked::each(form, &mut Splitmix(109), |build, _| builds.compare(build));
    let mut groups = builds.told();
    groups.extend(spoiled::run(form));
    finish("owners", groups)
}

/// How the port's answer is not this place, or this refusal, if it is not.
fn differs(
    expected: Result<u64, questions::Refusal>,
    state: &State,
    owners: &[u32],
    lamp: u32,
    zoom: u8,
) -> Option<String> {
    let expected = match expected {
        Ok(place) => Reply { number: 0, carried: place as usize },
        Err(refusal) => Reply { number: refusal as u32, carried: 0 },
    };
    other("reply", expected, package::owner(state, owners, lamp, zoom))
}

/// Lamps that a build of so many does not have.
pub fn beyond(count: u32) -> [u32; 5] {
    [count, count.wrapping_add(1), count.wrapping_mul(2), 1 << 31, u32::MAX]
}
