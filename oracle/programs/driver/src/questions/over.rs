//! Lent tables put into the Rust's public fields, whoever made them. What SCOPE refuses by 11 is not asked of the
//! Rust, since it trusts its tables: it would go on, panic or not end.

use crate::{attempt::attempt, plain};
use asked::Build;
use beside::{judge::Patched, Case, Rust, Said, Verdict};
use options::Plane;
use questions::{decoded, Item, Outcome, Question, Refusal, State};

/// The Rust over the tables of a state.
pub struct Over<'a> {
    build: &'a Build,
    rust: Rust<Patched>,
}

impl Over<'_> {
    /// The tables, where the state and all columns are in order: then an id below N is refused by 6.
    pub fn of(build: &Build) -> Option<Over<'_>> {
        let outcome = Question::Children { id: 0 }.answered(&build.state, &build.columns.lent());
        let whole = outcome.refusal() == Some(Refusal::NoCluster);
        whole.then(|| Over { build, rust: Rust::over(build) })
    }

    /// How the reference and the Rust compare, if the Rust can be asked. A tally is not the Rust's, and over
    /// such tables does not follow from its tile; its walks from the smallest table need not end.
    pub fn judged(&self, question: Question, outcome: &Outcome) -> Option<Verdict> {
        let build = self.build;
        let smallest = is_of_the_smallest_table(&build.state, &question);
        match question {
            _ if outcome.refusal() == Some(Refusal::Spoiled) => return None,
            _ if is_refused_without_a_limit(build, &question) => return None,
            Question::Tally { .. } => return None,
            Question::Leaves { .. } | Question::ExpansionZoom { .. } if smallest => return None,
            _ => {}
        }
        let mut said = None;
        let panic = attempt(|| {
            said = Some(self.rust.ask(build, &question));
            String::new()
        });
        let case = Case { state: &build.state, lent: build.columns.lent(), question };
        Some(match said {
            None => panicked(build, &panic),
            // No corners that the Rust can be given.
            Some(None) => return None,
            Some(Some(said)) => match case.judged(outcome, &self.rust, &said) {
                Verdict::Different(_) if moved_lamps(&case, build, outcome, &said) => {
                    Verdict::Listed("L9")
                }
                Verdict::Different(_) if smallest => Verdict::Listed("L11"),
                verdict => verdict,
            },
        })
    }
}

/// Whether a question has limit 0, where the Rust walks on into the children, and a walk so far is refused by 11.
fn is_refused_without_a_limit(build: &Build, question: &Question) -> bool {
    let Question::Leaves { id, limit: 0, offset } = *question else {
        return false;
    };
    let walk = Question::Leaves { id, limit: u32::MAX, offset };
    walk.answered(&build.state, &build.columns.lent()).refusal() == Some(Refusal::Spoiled)
}

/// Whether a question is by an id whose table is that of min_zoom, which SCOPE refuses.
fn is_of_the_smallest_table(state: &State, question: &Question) -> bool {
    match *question {
        Question::Children { id }
        | Question::Leaves { id, .. }
        | Question::ExpansionZoom { id } => {
            decoded(state.count, id).is_some_and(|(_, table)| table == state.coarsest())
        }
        _ => false,
    }
}

/// A panic of the Rust: it looked at a slot that the walk does not come to, or for the feature of a lamp.
fn panicked(build: &Build, panic: &str) -> Verdict {
    let State { count, .. } = build.state;
    let mut slot_past = false;
    let mut lamp_past = false;
    for zoom in build.state.coarsest()..=build.state.finest() {
        for at in build.state.positions(zoom) {
            slot_past |= build.columns.ids[at] >= build.state.lens[zoom];
            lamp_past |= build.columns.num[at] <= 1 && build.columns.id[at] >= count;
        }
    }
    match panic {
        "panics (index out of bounds)" if lamp_past => Verdict::Listed("L10"),
        "panics (index out of bounds)" if slot_past => Verdict::Listed("L1"),
        _ => Verdict::Different(format!("the Rust {panic}")),
    }
}

/// Whether a tile differs by nothing but where lamps lie whose entries are not where their features are.
fn moved_lamps(case: &Case, build: &Build, outcome: &Outcome, said: &Said) -> bool {
    let (Outcome::Tile(answer), Said::Items(items)) = (outcome, said) else {
        return false;
    };
    let alike = |(ours, theirs): (&Item, &plain::Item)| {
        let there = (ours.x, ours.y) == (theirs.x as i64, theirs.y as i64);
        case.entry(ours.place) == Some((theirs.id, theirs.num))
            && (there || theirs.num == 1 && is_moved(case, build, ours.place))
    };
    answer.items.len() == items.len() && answer.items.iter().zip(items).all(alike)
}

/// Whether the entry of a lamp is not where its feature is.
fn is_moved(case: &Case, build: &Build, place: u32) -> bool {
    let Some(at) = case.position(place) else {
        return false;
    };
    let lamp = build.columns.id[at] as usize;
    let [x, y] = [build.points[0][lamp], build.ys[lamp]];
    let feature = match build.state.options.plane {
        Plane::Globe if build.on_the_globe => [x / 360.0 + 0.5, y],
        // A caller's latitudes are none of the Rust's y then.
        Plane::Globe => return true,
        Plane::Cartesian(range) => [x, build.points[1][lamp]].map(|v| range.normalize(v)),
    };
    feature != [build.columns.x[at], build.columns.y[at]]
}
