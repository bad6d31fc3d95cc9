//! Every reply to a reading is come to over spoiled states and columns, many times, and every change for a reading decides alone.

use asked::spoiled::{self, Reading, UNCHANGED};
use questions::{post, State};
use splitmix::Splitmix;
use std::collections::BTreeMap;

/// How many states there are, and how many readings are posted to each.
const STATES: usize = 6_000;
const READINGS: usize = 6;

/// How often at least something has to be come to.
const OFTEN: usize = 50;

/// How often a change led from one number of a reply to another.
type Counts = BTreeMap<(&'static str, u32, u32), usize>;

/// The number of the reply to a reading.
fn number(state: &State, reading: &Reading) -> u32 {
    let Reading { energy, owners, lamp, figure, .. } = reading;
    let mut left = energy.clone();
    let reply = post(state, &mut left, owners, *lamp, *figure);
    assert!(reply.is_ok() || left == *energy, "a refusal that writes");
    reply.map_or_else(|refusal| refusal as u32, |()| 0)
}

/// All readings, by their changes and by the replies before and after these.
fn counted() -> Counts {
    let mut counts = Counts::new();
    let mut source = Splitmix(1);
    for number_of_state in 0..STATES {
        let build = spoiled::one(number_of_state, &mut source);
        let posts = spoiled::posts(&build, &mut source);
        for _ in 0..READINGS {
            let readings = posts.reading(&mut source);
            let [before, after] = [0, 1].map(|at| number(&build.state, &readings[at]));
            *counts.entry((readings[1].what[1], before, after)).or_default() += 1;
        }
    }
    counts
}

#[test]
fn every_reply() {
    let counts = counted();
    for (what, times) in &counts {
        println!("{what:?}: {times}");
    }
    let wanted: [(&str, &[u32]); 11] = [
        (UNCHANGED, &[0]),
        ("an owner past its table", &[11]),
        ("another lamp in the finest table", &[11]),
        ("a sum beside the figure so far", &[0, 11]),
        ("a sum near 2^64", &[0, 11]),
        ("all sums near 2^64", &[0, 11]),
        ("any energies", &[0, 11]),
        ("energies one short", &[11]),
        ("energies just long enough", &[0]),
        ("owners one short", &[11]),
        ("owners just long enough", &[0]),
    ];
    let often = |what, before, after| {
        let times = counts.get(&(what, before, after)).copied().unwrap_or(0);
        assert!(times >= OFTEN, "{what}, {before} to {after}: {times}");
    };
    for (what, numbers) in wanted {
        numbers.iter().for_each(|after| often(what, 0, *after));
    }
    // 11 by the state or the columns, 16 and 15 come before what the changes do.
    for refused in [11, 15, 16] {
        often("an owner past its table", refused, refused);
        often("a sum near 2^64", refused, refused);
    }
    // Short columns come before 15 and 16.
    for refused in [15, 16] {
        often("energies one short", refused, 11);
        often("owners one short", refused, 11);
    }
}
