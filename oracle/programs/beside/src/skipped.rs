//! Answers that the untouched Rust gives otherwise because its rings skip entries, over the same tables.

use crate::{judge::Untouched, Case, Rust};
use questions::{decoded, Outcome, Question};
use rust_builds::skipped::{self, Beside};

/// The rows of docs/DIFFERENCES.md under which such an answer falls, if it is one. A ring may only lack what is cut
/// off, and children may only lack what the ring of their cluster lacks; leaves and expansion zoom go by the children
/// of the clusters below, too.
pub fn listed(case: &Case, outcome: &Outcome, untouched: &Rust<Untouched>) -> Option<&'static str> {
    let (skips, code) = match case.question {
        Question::Ring { zoom, circle } => {
            (of_ring(case, outcome, untouched, zoom, circle) == Beside::Skips, "E2 to E4")
        }
        Question::Children { id } => (of_cluster(case, untouched, id) == Beside::Skips, "E6"),
        Question::Leaves { id, .. } | Question::ExpansionZoom { id } => {
            (below(case, untouched, id) == Beside::Skips, "E6")
        }
        _ => return None,
    };
    skips.then_some(code)
}

/// An answered ring beside the untouched Rust's.
fn of_ring(
    case: &Case,
    outcome: &Outcome,
    untouched: &Rust<Untouched>,
    zoom: u8,
    circle: [f64; 3],
) -> Beside {
    let Outcome::List(answer) = outcome else {
        return Beside::Other;
    };
    let table = case.state.positions(case.state.zoom_used(zoom));
    let at = |place: usize| [case.lent.x[table.start + place], case.lent.y[table.start + place]];
    let ours: Vec<usize> = answer.items.iter().map(|place| *place as usize).collect();
    match ours.iter().all(|place| *place < table.len()) {
        true => skipped::ring(circle, at, &ours, &untouched.within(zoom, circle)),
        false => Beside::Other,
    }
}

/// The ring that a cluster's children are found by.
fn of_cluster(case: &Case, untouched: &Rust<Untouched>, id: u32) -> Beside {
    let Some((origin, table)) = decoded(case.state.count, id) else {
        return Beside::Other;
    };
    let Some(at) = case.state.positions(table).nth(origin) else {
        return Beside::Other;
    };
    let options = &case.state.options;
    let radius = options.radius / (options.extent * 2.0_f64.powi(table as i32 - 1));
    let (zoom, circle) = (table as u8, [case.lent.x[at], case.lent.y[at], radius]);
    let outcome = Question::Ring { zoom, circle }.answered(case.state, &case.lent);
    of_ring(case, &outcome, untouched, zoom, circle)
}

/// The rings of a cluster and of all clusters below it: one skips, and none differs otherwise.
fn below(case: &Case, untouched: &Rust<Untouched>, id: u32) -> Beside {
    let mut beside = Beside::Same;
    let mut due = vec![id];
    while let Some(id) = due.pop() {
        match of_cluster(case, untouched, id) {
            Beside::Same => {}
            Beside::Skips => beside = Beside::Skips,
            Beside::Other => return Beside::Other,
        }
        due.extend(clusters_in(case, id));
    }
    beside
}

/// The clusters among the entries that have this parent.
fn clusters_in<'a>(case: &'a Case, id: u32) -> impl Iterator<Item = u32> + 'a {
    let table = decoded(case.state.count, id).map_or(0, |(_, table)| table);
    let is_child = move |at: &usize| case.lent.parent[*at] == id && case.lent.num[*at] > 1;
    case.state.positions(table).filter(is_child).map(|at| case.lent.id[at])
}
