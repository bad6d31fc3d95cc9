//! A box within an effort over states and columns that no build made: the judge is the reference, written from the scope.

use super::{effort_box, Found, Group, Replies, Scene};
use crate::Form;
use asked::{few, spoiled};
use questions::Question;
use splitmix::Splitmix;

/// Up to so many tests every allowance is asked; above, so many of them.
const ALL: usize = 24;

/// Runs the group.
pub fn run(form: Form, source: &mut Splitmix) -> Group {
    let mut group = Group::new("effort, over spoiled tables");
    let mut replies = Replies::new();
    spoiled::each(form, source, |build, source| {
        let columns = build.columns.clone();
        let scene = Scene { lent: columns.lent(), ..build.scene() };
        for question in few(&build.scene(), source) {
            let Question::Box { zoom, corners } = question else {
                continue;
            };
            let asked = |tests| effort_box(scene.state, &scene.lent, zoom, corners, tests);
            for allowance in allowances(asked(usize::MAX).tested, source) {
                let found = Found::by(&asked(allowance), allowance);
                let room = (found.items.len() + 2).saturating_sub(source.below(4) as usize);
                let about = || {
                    format!("{}, {question:?}, allowance {allowance}, room {room}", build.name())
                };
                let difference = found.differs(scene.state, &scene.lent, zoom, corners, room);
                group.compare(about, difference);
                replies.count(&found, room);
            }
        }
    });
    replies.print("over spoiled tables");
    group
}

/// Allowances for a box of so many tests.
fn allowances(tests: usize, source: &mut Splitmix) -> Vec<usize> {
    if tests <= ALL {
        return (0..=tests + 1).collect();
    }
    let mut some = vec![0, 1, tests - 1, tests, tests + 1, usize::MAX];
    some.extend((some.len()..ALL).map(|_| source.below(tests as u64) as usize));
    some
}
