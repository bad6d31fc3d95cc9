//! What only the untouched Rust skips: it is listed where a rounded edge cuts it off, and nowhere else.

use asked::Build;
use beside::{Case, Rusts, Verdict};
use options::{Options, USUAL};
use points::odd::BELOW_QUARTER;
use questions::{Answer, Outcome, Question};
use rust_builds::skipped::{ring, Beside};

/// SCOPE's ring beside a quarter.
const RING: [f64; 3] = [1.0, 0.5, 0.75];

/// A lamp at x = 1 and two beside a quarter, which it just reaches at zoom 0.
fn lamps(node_size: usize) -> Build {
    let options = Options { max_zoom: 0, radius: 384.0, extent: 512.0, node_size, ..USUAL };
    let xs = vec![1.0, BELOW_QUARTER, BELOW_QUARTER];
    Build::of("lamps".to_string(), options, [xs, vec![0.5; 3]])
}

/// How an answer to a question is judged: the reference's, as `change` leaves it.
fn judged(build: &Build, question: Question, change: impl Fn(&mut Vec<u32>)) -> Verdict {
    let scene = build.scene();
    let case = Case { state: scene.state, lent: scene.lent, question };
    let mut outcome = question.answered(case.state, &case.lent);
    if let Outcome::List(Answer { items, .. }) = &mut outcome {
        change(items);
    }
    Rusts::loaded(build).judged(&case, &outcome)
}

#[test]
fn a_ring_is_listed_where_the_index_is_split() {
    let question = Question::Ring { zoom: 1, circle: RING };
    assert_eq!(judged(&lamps(1), question, |_| ()), Verdict::Listed("E2 to E4"));
    assert_eq!(judged(&lamps(64), question, |_| ()), Verdict::Same);
    let changes: [fn(&mut Vec<u32>); 2] = [|items| items.truncate(2), |items| items.reverse()];
    for change in changes {
        assert!(matches!(judged(&lamps(1), question, change), Verdict::Different(_)));
    }
}

#[test]
fn other_tables_are_listed_and_asked_over() {
    let build = lamps(1);
    let root = build.columns.id[build.state.starts[0] as usize];
    assert!(Rusts::loaded(&build).skip_in_tables());
    assert!(!Rusts::loaded(&lamps(64)).skip_in_tables());
    let leaves = Question::Leaves { id: root, limit: 10, offset: 0 };
    for question in [Question::Children { id: root }, leaves] {
        assert_eq!(judged(&build, question, |_| ()), Verdict::Listed("E6"), "{question:?}");
        let wrong = judged(&build, question, |items| items.truncate(1));
        assert!(matches!(wrong, Verdict::Different(_)), "{question:?}");
    }
    let whole = Question::Box { zoom: 0, corners: [0.0, 0.0, 1.0, 1.0] };
    assert_eq!(judged(&build, whole, |_| ()), Verdict::Same);
}

#[test]
fn a_ring_may_lack_only_what_is_cut_off() {
    let at = |place: usize| [[1.0, 0.5], [BELOW_QUARTER, 0.5], [0.25, 0.5], [0.0, 0.5]][place];
    let beside = |ours: &[usize], theirs: &[usize]| ring(RING, at, ours, theirs);
    assert_eq!(beside(&[0, 1, 2], &[0, 1, 2]), Beside::Same);
    assert_eq!(beside(&[0, 1, 2], &[0, 2]), Beside::Skips);
    // One inside the edges, one that does not pass, one too many, another order.
    assert_eq!(beside(&[0, 1, 2], &[0, 1]), Beside::Other);
    assert_eq!(beside(&[0, 1, 2, 3], &[0, 1, 2]), Beside::Other);
    assert_eq!(beside(&[0, 2], &[0, 1, 2]), Beside::Other);
    assert_eq!(beside(&[0, 1, 2], &[2, 0]), Beside::Other);
}
