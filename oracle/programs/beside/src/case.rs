//! One question: an answer to it beside what the Rust says.

use crate::{
    judge::Judge,
    listed::{is_limit_0, of_limit_0, Refused},
    plans, Item, Rust, Said,
};
use asked::Build;
use questions::{decoded, Answer, Lent, Outcome, Question, Refusal, State};
use std::fmt::Debug;

/// How the two compare.
#[derive(Clone, Debug, PartialEq)]
pub enum Verdict {
    Same,
    /// They differ as the page's rows of this code say.
    Listed(&'static str),
    Different(String),
}

/// A question to a state and its columns, where the places of an answer are looked up.
pub struct Case<'a> {
    pub state: &'a State,
    pub lent: Lent<'a>,
    pub question: Question,
}

impl Case<'_> {
    /// Asks the Rust, which has loaded the points of a build, and holds an answer to what it says.
    pub fn beside<J: Judge>(&self, outcome: &Outcome, rust: &Rust<J>, build: &Build) -> Verdict {
        let Some(said) = rust.ask(build, &self.question) else {
            return Verdict::Different("no latitude for a y".to_string());
        };
        match self.judged(outcome, rust, &said) {
            Verdict::Same => plans::beside_strips(self, rust, &said),
            verdict => verdict,
        }
    }

    /// Holds an answer to what the Rust says.
    pub fn judged<J: Judge>(&self, outcome: &Outcome, rust: &Rust<J>, said: &Said) -> Verdict {
        let code = match outcome.refusal() {
            // Here the Rust's answer is the wrong one.
            None if is_limit_0(&self.question) => of_limit_0(&self.question, outcome, rust, said),
            None if self.agrees(outcome, said) => return Verdict::Same,
            None => None,
            Some(refusal) if error_of(said) == Some(refusal) => return Verdict::Same,
            Some(refusal) => {
                let refused = Refused { state: self.state, question: &self.question, refusal };
                refused.listed(rust, said)
            }
        };
        match code {
            Some(code) => Verdict::Listed(code),
            None => {
                let (ours, theirs) = (short(outcome), short(said));
                Verdict::Different(format!("answered {ours}, the {} Rust {theirs}", J::NAME))
            }
        }
    }

    /// Whether an answer that is not refused is the Rust's.
    fn agrees(&self, outcome: &Outcome, said: &Said) -> bool {
        match (outcome, said) {
            (Outcome::List(answer), Said::Places(places)) => {
                answer.items.iter().map(|place| *place as usize).eq(places.iter().copied())
            }
            (Outcome::List(answer), Said::Items(items)) => self.lists(answer, items),
            (Outcome::Tile(answer), Said::Items(items)) => {
                let ours = answer.items.iter().map(|item| (self.entry(item.place), item.x, item.y));
                let theirs = items
                    .iter()
                    .map(|item| (Some((item.id, item.num)), item.x as i64, item.y as i64));
                ours.eq(theirs)
            }
            (Outcome::Number(ours), Said::Number(theirs)) => *ours == Ok(*theirs as u64),
            _ => false,
        }
    }

    /// Whether a list of places or lamps is these features.
    fn lists(&self, answer: &Answer<u32>, items: &[Item]) -> bool {
        let theirs = items.iter().map(|item| Some((item.id, item.num)));
        match self.question {
            Question::Leaves { .. } => {
                answer.items.iter().map(|lamp| Some((*lamp as usize, 1))).eq(theirs)
            }
            _ => answer.items.iter().map(|place| self.entry(*place)).eq(theirs),
        }
    }

    /// Id and num of the entry at a place of the table that the question speaks of, as the Rust says them: a
    /// lamp counts 1. None where the table has no such place.
    pub fn entry(&self, place: u32) -> Option<(usize, usize)> {
        let at = self.position(place)?;
        Some((self.lent.id[at] as usize, self.lent.num[at].max(1) as usize))
    }

    /// Where the entry at that place stands in the columns.
    pub fn position(&self, place: u32) -> Option<usize> {
        let zoom = match self.question {
            Question::Box { zoom, .. } => self.state.zoom_used(zoom),
            Question::Tile { z, .. } => self.state.zoom_used(z),
            Question::Children { id } => decoded(self.state.count, id)?.1,
            _ => unreachable!("a question that lists no places of a table"),
        };
        self.state.positions(zoom).nth(place as usize)
    }
}

/// The refusal that the Rust's error stands for.
fn error_of(said: &Said) -> Option<Refusal> {
    match said {
        Said::NoTree => Some(Refusal::NoTree),
        Said::NoCluster => Some(Refusal::NoCluster),
        Said::NoTile => Some(Refusal::EmptyTile),
        Said::Items(_) | Said::Places(_) | Said::Number(_) => None,
    }
}

/// The beginning of a value's text.
fn short(value: &impl Debug) -> String {
    let text = format!("{value:?}");
    match text.char_indices().nth(240) {
        Some((end, _)) => format!("{}..", &text[..end]),
        None => text,
    }
}
