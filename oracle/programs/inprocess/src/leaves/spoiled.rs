//! Limit 0 over states and columns that no build made: the judge is the reference, written from the scope.

use crate::{questions::both::differs, report::Group, Form};
use asked::{few, rooms, spoiled, Scene};
use questions::{Outcome, Question, Refusal};
use splitmix::Splitmix;
use std::collections::BTreeMap;

/// How often each pair of replies came: of limit 0, and of limit 1.
type Replies = BTreeMap<[u32; 2], usize>;

/// The ids that each state is asked for children by, and others, at limit 0.
pub fn run(form: Form, source: &mut Splitmix) -> Group {
    let mut group = Group::new("leaves, limit 0 over spoiled tables");
    let mut replies = Replies::new();
    spoiled::each(form, source, |build, source| {
        let columns = build.columns.clone();
        let scene = Scene { lent: columns.lent(), ..build.scene() };
        for question in few(&build.scene(), source) {
            let Question::Children { id } = question else {
                continue;
            };
            let offset = source.pick(&[0, 0, 1, 3, u32::MAX]);
            let asked = |limit| {
                let question = Question::Leaves { id, limit, offset };
                (question, question.answered(scene.state, &scene.lent))
            };
            let ((question, outcome), (_, next)) = (asked(0), asked(1));
            let rooms = rooms(source.below(3) as usize, source);
            let about = || format!("{}, {question:?}, {rooms:?}", build.name());
            group.compare(about, differs(&scene, &question, &outcome, &rooms));
            *replies.entry([outcome, next].map(number)).or_default() += 1;
        }
    });
    for ([of_0, of_1], times) in replies {
        println!("over spoiled tables, reply {of_0} at limit 0 and {of_1} at limit 1: {times}");
    }
    group
}

/// The number of a reply, with room for all.
fn number(outcome: Outcome) -> u32 {
    outcome.refusal().map_or(0, |refusal: Refusal| refusal as u32)
}
