//! States and columns that no build made, and as many lamps as a build can have and one more: the judge is the reference.

use super::Lent;
use crate::{report::Group, Form};
use asked::{
    spoiled::{self, Reading},
    Build,
};
use questions::{post, Refusal};
use splitmix::Splitmix;
use std::collections::BTreeMap;

/// How many readings are posted to each state.
const READINGS: usize = 6;

/// Runs the group.
pub fn run(form: Form) -> Group {
    let mut source = Splitmix(1_110);
    let mut spoiled = Spoiled::new();
    spoiled::small(form, &mut source, |build, source| spoiled.compare(build, source));
    spoiled.told()
}

/// What was compared so far, and how often each number of a reply came, by whether there is such a lamp.
struct Spoiled {
    group: Group,
    replies: BTreeMap<(bool, u32), usize>,
}

impl Spoiled {
    fn new() -> Spoiled {
        let group = Group::new("posts, over spoiled states and columns");
        Spoiled { group, replies: BTreeMap::new() }
    }

    /// One state, with columns of its own, and readings each posted to these.
    fn compare(&mut self, build: &Build, source: &mut Splitmix) {
        let posts = spoiled::posts(build, source);
        for _ in 0..READINGS {
            let [_, Reading { what, energy, owners, lamp, figure }] = posts.reading(source);
            let mut left = energy.clone();
            let expected = post(&build.state, &mut left, &owners, lamp, figure);
            let number = expected.map_or_else(|refusal| refusal as u32, |()| 0);
            *self.replies.entry((lamp < build.state.count, number)).or_default() += 1;
            let about = || {
                let lengths = [energy.len(), owners.len()];
                let [owners, changed] = what;
                let columns = format!("{owners}, {changed}, columns of {lengths:?}");
                format!("{}, {columns}, lamp {lamp}, figure {figure}", build.name())
            };
            let lent = Lent { state: &build.state, energy: &energy, owners: &owners };
            let difference = lent.differs((lamp, figure), expected.map(|()| &left[..]));
            self.group.compare(about, difference);
        }
    }

    /// Says how often each reply; the group. One that never came is a difference: it would not be tried.
    fn told(mut self) -> Group {
        for ((there, number), times) in &self.replies {
            let lamp = if *there { "a lamp of the state" } else { "no such lamp" };
            println!("posts over spoiled states, {lamp}, reply {number}: {times}");
        }
        let [spoiled, energy, lamp] =
            [Refusal::Spoiled, Refusal::Energy, Refusal::Lamp].map(|refusal| refusal as u32);
        let there = [0, spoiled, energy].map(|number| (true, number));
        for reply in there.into_iter().chain([(false, spoiled), (false, lamp)]) {
            let never = !self.replies.contains_key(&reply);
            let about = || "all states".to_string();
            self.group.compare(about, never.then(|| format!("{reply:?} never comes")));
        }
        self.group
    }
}
