//! Every reply of every question is come to over spoiled tables, many times.

use asked::{few, spoiled, Form};
use questions::{Out, Outcome, Question, Refusal};
use splitmix::Splitmix;
use std::collections::BTreeMap;

/// What is counted: the question, the number of the reply, and whether something is left in a column.
type Counts = BTreeMap<(&'static str, u32, bool), usize>;

fn name(question: &Question) -> &'static str {
    match question {
        Question::Box { .. } => "box",
        Question::Ring { .. } => "ring",
        Question::Children { .. } => "children",
        Question::Leaves { .. } => "leaves",
        Question::ExpansionZoom { .. } => "expansion zoom",
        Question::Tile { .. } => "tile",
        Question::Tally { .. } => "tally",
    }
}

fn counted() -> Counts {
    let mut counts = Counts::new();
    let mut source = Splitmix(1);
    spoiled::each(Form::Short, &mut source, |build, source| {
        let scene = build.scene();
        for question in few(&scene, source) {
            let outcome = question.answered(scene.state, &scene.lent);
            let (mut places, mut x, mut y) = ([0; 2], [0; 2], [0; 2]);
            let reply = outcome.told(&mut Out { places: &mut places, x: &mut x, y: &mut y });
            *counts.entry((name(&question), reply.number, outcome.length() > 0)).or_default() += 1;
            assert!(is_in_order(&outcome), "{}, {question:?}: {outcome:?}", build.name());
        }
    });
    counts
}

/// A refusal before a walk lists nothing.
fn is_in_order(outcome: &Outcome) -> bool {
    let refusal = match outcome {
        Outcome::List(answer) => answer.refusal,
        Outcome::Tile(answer) => answer.refusal,
        Outcome::Number(_) => None,
    };
    matches!(refusal, None | Some(Refusal::Spoiled)) || outcome.length() == 0
}

#[test]
fn every_reply() {
    let counts = counted();
    for (what, times) in &counts {
        println!("{what:?}: {times}");
    }
    let lists: [(&str, &[u32]); 5] = [
        ("box", &[0, 10, 11]),
        ("ring", &[0, 10, 11]),
        ("children", &[0, 10, 11]),
        ("leaves", &[0, 10, 11]),
        ("tile", &[0, 10, 11]),
    ];
    let others: [(&str, &[u32]); 7] = [
        ("box", &[0, 9, 11]),
        ("ring", &[0, 9, 11]),
        ("children", &[5, 6, 11]),
        ("leaves", &[0, 5, 6, 11]),
        ("expansion zoom", &[0, 5, 6, 11]),
        ("tile", &[7, 8, 11]),
        ("tally", &[0, 7, 11]),
    ];
    let wanted = |all: &[(&'static str, &[u32])], some: bool| {
        for (name, numbers) in all {
            for number in *numbers {
                let times = counts.get(&(*name, *number, some)).copied().unwrap_or(0);
                assert!(times >= 50, "{name} {number} {some}: {times}");
            }
        }
    };
    wanted(&lists, true);
    wanted(&others, false);
}
