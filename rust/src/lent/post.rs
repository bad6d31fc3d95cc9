//! A reading posted to a build, in lent columns.

use super::{calls::call, Reply, State};

/// Replaces a lamp's watt-hours by `figure` without a new build: in its own entry and, in every other table, in the entry that
/// owns it. `energy` and `owners` are the columns that a build leaves; all else in `energy` stays. Refused in this order, and then
/// nothing is written: 11 by the state or a short column, 16, 15, 11 by an owner's place or its energy. Nothing is carried: it is
/// [`Supercluster::post`](crate::Supercluster::post) that names the lamp where it is refused 15.
///
/// ```
/// use reachvolem::{lent::{self, Reply}, Options, Supercluster};
///
/// let lamps = Supercluster::load(Options::default(), &[0.0, 0.01], &[0.5, 0.5], &[7, 9])?;
/// let mut energy = lamps.columns().energy.to_vec();
/// let reply = lent::post(lamps.state(), &mut energy, lamps.columns().owners, 1, 20);
/// assert_eq!(reply, Reply { number: 0, carried: 0 });
/// assert_eq!((&energy[..2], energy.last()), (&[7, 20][..], Some(&27)));
/// # Ok::<(), reachvolem::Refused>(())
/// ```
pub fn post(state: &State, energy: &mut [u64], owners: &[u32], lamp: u32, figure: u64) -> Reply {
    let State { options, count, starts, lens } = state;
    let number = call!(
        options,
        supercluster_post(
            *count,
            starts,
            lens,
            energy.as_mut_ptr(),
            energy.len(),
            owners.as_ptr(),
            owners.len(),
            lamp,
            figure,
        )
    );
    Reply { number, carried: 0 }
}
