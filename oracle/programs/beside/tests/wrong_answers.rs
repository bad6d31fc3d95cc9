//! Answers that are wrong in one thing: each is a difference, and the right ones are none.

use asked::Build;
use beside::{Case, Rusts, Verdict};
use options::{corners, Options, Plane, UNIT};
use questions::{leaves, Answer, Outcome, Question, Refusal};
use splitmix::Splitmix;

/// Every question to some builds, by the reference, and by answers that are made wrong.
#[test]
fn every_wrong_answer_is_a_difference() {
    let mut source = Splitmix(3);
    let (mut right, mut wrong) = ([0; 7], [0; 7]);
    for count in [1, 2, 5, 9, 30, 80, 602] {
        let build = Build::made(corners::ordinary(&mut source), count, &mut source);
        let (scene, rusts) = (build.scene(), Rusts::loaded(&build));
        assert_eq!(rusts.are_three(), count <= 601);
        for question in asked::many(&scene, &mut source) {
            let case = Case { state: scene.state, lent: scene.lent, question };
            let outcome = question.answered(case.state, &case.lent);
            let differs =
                |outcome: &Outcome| matches!(rusts.judged(&case, outcome), Verdict::Different(_));
            assert!(!differs(&outcome), "{question:?}");
            right[question.kind()] += 1;
            for other in made_wrong(&outcome) {
                assert!(differs(&other), "{question:?}: {other:?} for {outcome:?}");
                wrong[question.kind()] += 1;
            }
        }
    }
    assert!(right.iter().chain(&wrong).all(|times| *times > 100), "{right:?}, {wrong:?}");
}

/// At limit 0 the Rust lists all the lamps, as the page says: whoever lists them, or one of them, differs.
#[test]
fn lamps_at_limit_0_are_a_difference() {
    let mut source = Splitmix(4);
    let mut clusters = 0;
    for count in [9, 30, 80, 300] {
        let build = Build::made(corners::ordinary(&mut source), count, &mut source);
        let (scene, rusts) = (build.scene(), Rusts::loaded(&build));
        let entries = scene.lent.id.iter().zip(scene.lent.num);
        for (id, num) in entries.filter(|(_, num)| **num > 1) {
            let judged = |limit, items: &[u32]| {
                let question = Question::Leaves { id: *id, limit, offset: 0 };
                let case = Case { state: scene.state, lent: scene.lent, question };
                let answer = Answer { items: items.to_vec(), refusal: None };
                rusts.judged(&case, &Outcome::List(answer))
            };
            let all = leaves(scene.state, &scene.lent, *id, *num, 0).items;
            assert_eq!(judged(*num, &all), Verdict::Same);
            assert_eq!(judged(0, &[]), Verdict::Listed("N1"));
            for some in [&all[..], &all[..1]] {
                assert!(matches!(judged(0, some), Verdict::Different(_)));
            }
            clusters += 1;
        }
    }
    assert!(clusters > 100, "{clusters}");
}

/// On a plan without strips the Rust's own tile is the wrong answer where its strips list something. A tally is the same with
/// them and without.
#[test]
fn ghosts_on_a_plan_are_a_difference() {
    let mut source = Splitmix(5);
    let mut ghosts = 0;
    for count in [2, 3, 5, 7, 8, 9, 12, 20, 30, 50, 80, 120] {
        let plane = Plane::Cartesian(UNIT);
        let options = Options { plane, ..corners::ordinary(&mut source) };
        let on =
            Build::made(Options { longitude_strips_only: true, ..options }, count, &mut source);
        let mut off = on.state.clone();
        off.options.longitude_strips_only = false;
        let (scene, rusts) = (on.scene(), Rusts::loaded(&on));
        for question in asked::many(&scene, &mut source) {
            let case = Case { state: scene.state, lent: scene.lent, question };
            let [with, without] = [&off, scene.state].map(|s| question.answered(s, &scene.lent));
            match rusts.judged(&case, &without) {
                Verdict::Listed("P1 to P3") => ghosts += usize::from(with != without),
                _ => assert_eq!(with, without, "{question:?}"),
            }
            if with != without {
                let verdict = rusts.judged(&case, &with);
                assert!(matches!(verdict, Verdict::Different(_)), "{question:?}: {verdict:?}");
            }
        }
    }
    assert!(ghosts > 30, "{ghosts}");
}

/// Refused by no right number; a number beside the right one; a list of too little, too much, or something else.
fn made_wrong(outcome: &Outcome) -> Vec<Outcome> {
    match outcome {
        Outcome::List(answer) => lists(answer, |place| place ^ 1).map(Outcome::List).collect(),
        Outcome::Tile(answer) => {
            let aside = lists(answer, |item| questions::Item { x: item.x + 1, ..item });
            let down = lists(answer, |item| questions::Item { y: item.y - 1, ..item });
            aside.chain(down).map(Outcome::Tile).collect()
        }
        Outcome::Number(Ok(number)) => {
            [Ok(number + 1), Ok(number.wrapping_sub(1)), Err(Refusal::NoTree)]
                .map(Outcome::Number)
                .to_vec()
        }
        Outcome::Number(Err(_)) => vec![Outcome::Number(Err(Refusal::Spoiled))],
    }
}

/// A list with one thing wrong in it: what refuses it, the last item gone or twice, the first one changed.
fn lists<T: Copy>(answer: &Answer<T>, change: impl Fn(T) -> T) -> impl Iterator<Item = Answer<T>> {
    let Answer { items, refusal } = answer;
    let mut all = vec![Answer { items: items.clone(), refusal: Some(Refusal::Spoiled) }];
    if let (None, Some((last, before))) = (refusal, items.split_last()) {
        let changed = [&[change(items[0])], &items[1..]].concat();
        let others = [before.to_vec(), [&items[..], &[*last]].concat(), changed];
        all.extend(others.map(|items| Answer { items, refusal: None }));
    }
    all.into_iter()
}
