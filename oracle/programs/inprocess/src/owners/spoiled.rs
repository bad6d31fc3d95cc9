//! States and columns of owners that no build made, and as many lamps as a build can have and one more: the judge is the reference.

use super::{beyond, differs};
use crate::{report::Group, Form};
use asked::{spoiled, Build};
use questions::{owner, Refusal};
use splitmix::Splitmix;
use std::collections::BTreeMap;

/// How many lamps and how many zooms a state is asked at most, beside those that it does not have.
const LAMPS: u32 = 8;
const ZOOMS: usize = 8;

/// Runs the groups.
pub fn run(form: Form) -> Vec<Group> {
    let mut source = Splitmix(1_109);
    let mut spoiled = Spoiled::new();
    spoiled::small(form, &mut source, |build, source| spoiled.compare(build, source));
    spoiled.told()
}

/// What was compared so far, and how often each number of a reply came, by whether there is such a lamp.
struct Spoiled {
    group: Group,
    first: Group,
    replies: BTreeMap<(bool, u32), usize>,
}

impl Spoiled {
    fn new() -> Spoiled {
        Spoiled {
            group: Group::new("owners, over spoiled states and columns"),
            first: Group::new("owners, spoiled states and no such lamp"),
            replies: BTreeMap::new(),
        }
    }

    /// One state, asked with a column of its own.
    fn compare(&mut self, build: &Build, source: &mut Splitmix) {
        let state = &build.state;
        let (what, owners) = spoiled::owners(build, source);
        // A copy has no room behind it, so that the address sanitizer sees its end.
        let owners: Box<[u32]> = owners.into();
        for zoom in zooms(build, source) {
            for lamp in lamps(state.count, source) {
                let expected = owner(state, &owners, lamp, zoom);
                let there = lamp < state.count;
                let number = expected.map_or_else(|refusal| refusal as u32, |_| 0);
                *self.replies.entry((there, number)).or_default() += 1;
                let about = || {
                    let length = owners.len();
                    format!("{}, {what}, {length} of them, lamp {lamp}, zoom {zoom}", build.name())
                };
                let difference = differs(expected, state, &owners, lamp, zoom);
                match there {
                    true => self.group.compare(about, difference),
                    false => self.first.compare(about, difference),
                }
            }
        }
    }

    /// Says how often each reply; the groups. One that never came is a difference: it would not be tried.
    fn told(mut self) -> Vec<Group> {
        for ((there, number), times) in &self.replies {
            let lamp = if *there { "a lamp of the state" } else { "no such lamp" };
            println!("owners over spoiled states, {lamp}, reply {number}: {times}");
        }
        let [lamp, spoiled] = [Refusal::Lamp, Refusal::Spoiled].map(|refusal| refusal as u32);
        for reply in [(true, 0), (true, spoiled), (false, lamp), (false, spoiled)] {
            let never = !self.replies.contains_key(&reply);
            let about = || "all states".to_string();
            self.group.compare(about, never.then(|| format!("{reply:?} never comes")));
        }
        vec![self.group, self.first]
    }
}

/// Zooms for a state: built ones, and others.
fn zooms(build: &Build, source: &mut Splitmix) -> Vec<u8> {
    let [least, most] = [build.state.options.min_zoom, build.state.options.max_zoom];
    let tables = usize::from(most.saturating_sub(least)) + 2;
    let built: Vec<u8> = match tables {
        0..=ZOOMS => (0..tables).map(|at| least.wrapping_add(at as u8)).collect(),
        _ => (0..ZOOMS)
            .map(|_| least.wrapping_add(source.below(tables as u64) as u8))
            .chain([least, most.wrapping_add(1)])
            .collect(),
    };
    let other = source.pick(&[0, 31, 32, 255, least.wrapping_sub(1), most.wrapping_add(2)]);
    built.into_iter().chain([other]).collect()
}

/// Lamps of a state, and some that it does not have.
fn lamps(count: u32, source: &mut Splitmix) -> Vec<u32> {
    let there: Vec<u32> = match count {
        0..=LAMPS => (0..count).collect(),
        _ => {
            let any = |_| source.below(u64::from(count)) as u32;
            (0..LAMPS).map(any).chain([0, count - 1]).collect()
        }
    };
    there.into_iter().chain(beyond(count)).collect()
}
