//! The differences that docs/DIFFERENCES.md lists, by their codes: what SCOPE refuses, why, and what the Rust says
//! then.

use crate::{judge::Judge, Rust, Said};
use options::Plane;
use questions::{decoded, Outcome, Question, Refusal, State};

/// A question that is refused.
pub struct Refused<'a> {
    pub state: &'a State,
    pub question: &'a Question,
    pub refusal: Refusal,
}

impl Refused<'_> {
    /// The rows of the page under which this falls, if the refusal is right and the Rust says what they show.
    /// The Rust's errors of the same number are no difference, and not asked about here.
    pub fn listed<J: Judge>(&self, rust: &Rust<J>, said: &Said) -> Option<&'static str> {
        match *self.question {
            Question::Box { corners, .. } => {
                let code = of_box(&self.state.options.plane, &corners)?;
                (self.refusal == Refusal::Box && matches!(said, Said::Items(_))).then_some(code)
            }
            Question::Ring { circle, .. } => {
                let code = of_ring(&circle)?;
                (self.refusal == Refusal::Box && matches!(said, Said::Places(_))).then_some(code)
            }
            Question::Children { id } => {
                let wraps = id < self.state.count && !self.wraps_to_a_tree(id);
                let listed = self.refusal == Refusal::NoCluster && *said == Said::NoTree;
                (wraps && listed).then_some("I1")
            }
            Question::Leaves { id, .. } => {
                let code = self.of_id(rust, id, ["I3", "I5", "I7", "I9", "I11"])?;
                (*said == Said::Items(Vec::new())).then_some(code)
            }
            Question::ExpansionZoom { id } => {
                let code = self.of_id(rust, id, ["I4", "I6", "I8", "I10", "I12"])?;
                let before = self.wrapped_table(id).wrapping_sub(1);
                (*said == Said::Number(before)).then_some(code)
            }
            Question::Tile { z, x, y } | Question::Tally { z, x, y } => {
                let code = of_tile(z, x, y)?;
                let answers = matches!(said, Said::Items(_) | Said::NoTile);
                (self.refusal == Refusal::Tile && answers).then_some(code)
            }
        }
    }

    /// The code for why an id is refused: below N, the table of min_zoom, no table, an origin past it, no
    /// children. The Rust refuses its children by the same number; below N it decodes another id.
    fn of_id<J: Judge>(
        &self,
        rust: &Rust<J>,
        id: u32,
        codes: [&'static str; 5],
    ) -> Option<&'static str> {
        let State { count, ref lens, .. } = *self.state;
        let (coarsest, finest) = (self.state.coarsest(), self.state.finest());
        let at = match decoded(count, id) {
            None => 0,
            Some((_, table)) if table == coarsest => 1,
            Some((_, table)) if !(coarsest..=finest).contains(&table) => 2,
            Some((origin, table)) if origin >= lens[table] as usize => 3,
            Some(_) => 4,
        };
        let right = match self.refusal {
            Refusal::NoCluster if at == 0 => true,
            Refusal::NoCluster => rust.children(id) == Said::NoCluster,
            Refusal::NoTree => rust.children(id) == Said::NoTree,
            _ => false,
        };
        right.then_some(codes[at])
    }

    /// The table of an id as the Rust decodes it: below N it wraps around.
    fn wrapped_table(&self, id: u32) -> usize {
        (id as usize).wrapping_sub(self.state.count as usize) % 32
    }

    /// Whether an id below N wraps around to a table that is built.
    fn wraps_to_a_tree(&self, id: u32) -> bool {
        let built = self.state.coarsest()..=self.state.finest();
        built.contains(&self.wrapped_table(id))
    }
}

/// Whether a question is for leaves with limit 0 at offset 0, of which the Rust lists all.
pub fn is_limit_0(question: &Question) -> bool {
    matches!(question, Question::Leaves { limit: 0, offset: 0, .. })
}

/// The row for such a question that is not refused: nothing is listed, and the Rust lists what it lists where the
/// limit is as large as can be.
pub fn of_limit_0<J: Judge>(
    question: &Question,
    outcome: &Outcome,
    rust: &Rust<J>,
    said: &Said,
) -> Option<&'static str> {
    let Question::Leaves { id, .. } = *question else {
        return None;
    };
    let all = *said == rust.leaves(id, u32::MAX, 0) && *said != Said::Items(Vec::new());
    (outcome.length() == 0 && all).then_some("N1")
}

fn of_box(plane: &Plane, corners: &[f64; 4]) -> Option<&'static str> {
    let finite = |v: f64| v.is_finite();
    let [w, least, e, greatest] = *corners;
    match plane {
        Plane::Cartesian(_) => (!corners.iter().all(|v| finite(*v))).then_some("B1 to B3"),
        Plane::Globe if !finite(w) || !finite(e) => Some("B4 to B6"),
        Plane::Globe => {
            let outside = [least, greatest].iter().any(|y| !(*y >= 0.0 && *y <= 1.0));
            outside.then_some("B7 to B9")
        }
    }
}

fn of_ring(circle: &[f64; 3]) -> Option<&'static str> {
    match circle.iter().all(|v| v.is_finite()) {
        true => (circle[2] < 0.0).then_some("S5, S6"),
        false => Some("S1 to S4"),
    }
}

fn of_tile(z: u8, x: u32, y: u32) -> Option<&'static str> {
    match z {
        32.. => Some("T1, T2"),
        _ if u64::from(x) >= 1 << z => Some("T3"),
        _ => (u64::from(y) >= 1 << z).then_some("T4"),
    }
}
