//! The searches of the untouched Rust over built indexes, whose columns they are given: a box must be the same, and a
//! ring may lack only what a rounded edge cuts off.

use super::{queries::Query, rust};
use crate::report::{other_column, Group};
use rust_builds::skipped::{self, Beside};

/// What was compared so far, and how often a ring lacks something.
pub struct BesideUntouched {
    name: &'static str,
    group: Group,
    skips: usize,
}

impl BesideUntouched {
    pub fn new(name: &'static str) -> BesideUntouched {
        BesideUntouched { name, group: Group::new(name), skips: 0 }
    }

    /// One query to an index of these points, and the places that it answers.
    pub fn compare(
        &mut self,
        xs: &[f64],
        ys: &[f64],
        query: &Query,
        places: &[u32],
        bare: &rust::Untouched,
        about: impl FnOnce() -> String,
    ) {
        let theirs = bare.places(query);
        let at = |place: u32| [xs[place as usize], ys[place as usize]];
        let skips = match *query {
            Query::Range(_) => false,
            Query::Within(circle) => skipped::ring(circle, at, places, &theirs) == Beside::Skips,
        };
        self.skips += usize::from(skips);
        let difference = if skips { None } else { other_column("places", &theirs, places) };
        self.group.compare(about, difference);
    }

    /// Says how often a listed difference; the group. Rings that come to none do not try the rule.
    pub fn told(mut self) -> Group {
        let never = (self.skips == 0).then(|| "nothing is skipped".to_string());
        self.group.compare(|| "all rings".to_string(), never);
        println!("{}: differences listed under E2 to E4: {}", self.name, self.skips);
        self.group
    }
}
