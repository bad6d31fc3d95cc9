//! The builds of the Rust, each with its own build of the same points.

use crate::{
    judge::{Patched, Ringed, Untouched},
    skipped, Case, Rust, Verdict,
};
use asked::Build;
use questions::Outcome;
use rust_builds::{ringed, skipped::Beside, untouched, WITHOUT_WINDOW};

/// The patched Rust, and the two with the window block where the points are so few that they arrange them alike.
pub struct Rusts<'a> {
    build: &'a Build,
    patched: Rust<Patched>,
    others: Option<Others>,
}

/// The Rust with the rings of #106 alone, and the untouched one.
struct Others {
    ringed: Rust<Ringed>,
    untouched: Rust<Untouched>,
    tables: Beside,
}

impl Rusts<'_> {
    /// The points of a build, loaded by each.
    pub fn loaded(build: &Build) -> Rusts<'_> {
        let few = build.points[0].len() <= WITHOUT_WINDOW;
        let others = few.then(|| Others::loaded(build));
        Rusts { build, patched: Rust::loaded(build), others }
    }

    /// Whether the two with the window block are asked too.
    pub fn are_three(&self) -> bool {
        self.others.is_some()
    }

    /// Whether the untouched Rust makes other tables for what its rings skip. It is then asked over the same tables
    /// as the others.
    pub fn skip_in_tables(&self) -> bool {
        self.others.as_ref().is_some_and(|others| others.tables == Beside::Skips)
    }

    /// Holds an answer to what each says: all must come to the same, but for what only the untouched Rust skips.
    pub fn judged(&self, case: &Case, outcome: &Outcome) -> Verdict {
        let by_patched = case.beside(outcome, &self.patched, self.build);
        match (&by_patched, &self.others) {
            (Verdict::Different(_), _) | (_, None) => by_patched,
            (_, Some(others)) => others.judged(case, outcome, self.build, by_patched),
        }
    }
}

impl Others {
    fn loaded(build: &Build) -> Others {
        let (options, [xs, ys]) = (&build.state.options, &build.points);
        let tables = rust_builds::skipped::tables(
            &ringed::loaded(options, xs, ys),
            &untouched::loaded(options, xs, ys),
        );
        let untouched = match tables {
            Beside::Skips => Rust::over(build),
            _ => Rust::loaded(build),
        };
        Others { ringed: Rust::loaded(build), untouched, tables }
    }

    fn judged(
        &self,
        case: &Case,
        outcome: &Outcome,
        build: &Build,
        by_patched: Verdict,
    ) -> Verdict {
        let by_ringed = case.beside(outcome, &self.ringed, build);
        if by_patched != by_ringed {
            return Verdict::Different(format!(
                "by the patched Rust {by_patched:?}, by the ringed one {by_ringed:?}"
            ));
        }
        let by_untouched = case.beside(outcome, &self.untouched, build);
        if by_patched == by_untouched {
            return by_patched;
        }
        match skipped::listed(case, outcome, &self.untouched) {
            Some(code) if by_patched == Verdict::Same => Verdict::Listed(code),
            _ => Verdict::Different(format!(
                "by the patched Rust {by_patched:?}, by the untouched one {by_untouched:?}"
            )),
        }
    }
}
