//! A reading posted to a build (#110): a lamp's energy replaced in every table, without a new build.
//!
//! Over builds a series of readings is posted to the columns that the port's own build left. After each the whole energy column, and
//! what stands behind it, is held to the sums over the lamps that the patched Rust lists for each entry, with the new figures; and to
//! the energy column of a new build of the port with these figures, of which the tables' starts and lengths and the owners have to be
//! the old ones. Of a build of above 64 lamps that is after every eighth reading, and in large ones many readings are posted between two
//! looks. Two readings of different lamps are posted in either order, and the old figure is posted once more: the columns have to be the
//! same. Of lamps that are not there, figures that are too large and short columns the refusals are SCOPE's, and nothing may be written.
//!
//! Over states and columns that no build made the judge of the reply and of the whole column is the reference, written from the scope.
//! Columns are lent just as long as they have to be, longer, and short, without room behind them.
//!
//! That this can fail was tried, in the short form of 200,579 cases: with a posting around the proved one that leaves the coarsest table
//! as it was, 55,309 of them differ.

mod builds;
mod spoiled;

use crate::{
    package,
    report::{finish, other, other_column},
    Form,
};
use builds::Builds;
use questions::{Refusal, State};
use reachvolem::lent::Reply;
use splitmix::Splitmix;
use std::process::ExitCode;

/// Runs every group.
pub fn run(form: Form) -> ExitCode {
    // The readings have a generator of their own, so that the builds do not depend on them.
    let (mut builds, mut readings) = (Builds::new(), Splitmix(2_110));
    asked::each(form, &mut Splitmix(110), |build, _| builds.compare(build, &mut readings));
    let mut groups = builds.told();
    groups.push(spoiled::run(form));
    finish("posts", groups)
}

/// A state and columns as a reading is posted to them.
#[derive(Clone, Copy)]
struct Lent<'a> {
    state: &'a State,
    energy: &'a [u64],
    owners: &'a [u32],
}

impl Lent<'_> {
    /// How a reading is not refused so, or taken and these energies left, if it is not. The columns are copied before they are lent: a
    /// copy has no room behind it, so that the address sanitizer sees its end.
    fn differs(
        &self,
        (lamp, figure): (u32, u64),
        expected: Result<&[u64], Refusal>,
    ) -> Option<String> {
        let mut energy: Box<[u64]> = self.energy.into();
        let owners: Box<[u32]> = self.owners.into();
        let reply = package::post(self.state, &mut energy, &owners, lamp, figure);
        let (number, left) = match expected {
            Ok(left) => (0, left),
            Err(refusal) => (refusal as u32, self.energy),
        };
        other("reply", Reply { number, carried: 0 }, reply)
            .or_else(|| other_column("energy", left, &energy))
    }
}
