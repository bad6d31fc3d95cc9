//! Boxes inside boxes (#111): what the port answers for the common part of two boxes and of three, beside what
//! the Rust answers for each of them and for the common part. Over a table 16 boxes are laid, half of them by
//! earlier ones: with the same numbers, numbers one step beside them, the other zero, or beginning where that one
//! ends. All 256 pairs are asked for, and 160 triples, cut in all twelve ways. The patched Rust is asked, and the
//! untouched one too where it made the same tables.
//!
//! That this can fail was tried in the short form of 518,400 cases: with the smaller of the least numbers in the
//! common part 213,498 differ; with the order turned round 89,455; with the second box forgotten 291,737; if nothing
//! is expected of a common part that is empty as it is given 1,407, all of which hold lamps after normalising; with
//! the eastern edge one step less in the calls of the port 58,360.

mod boxes;
mod builds;
mod rusts;

use super::port::Port;
use crate::{
    report::{finish, other, Group},
    Form,
};
use asked::Build;
use beside::Case;
use boxes::{common, empty, normalized, pool, Corners, Kind};
use options::Range;
use questions::{Outcome, Question};
use rusts::Rusts;
use splitmix::Splitmix;
use std::{collections::HashSet, process::ExitCode};

/// Id and num of the entries of an answer, in order.
type Entries = Vec<(usize, usize)>;

/// How many boxes are laid over a table, each pair of which is asked for, and how many triples of them.
const BOXES: usize = 16;
const TRIPLES: usize = 160;

/// The names of the groups: one for each kind of pair, then the triples, and the boxes themselves.
const NAMES: [&str; 9] = [
    "overlap, the same box twice",
    "overlap, empty after normalising",
    "overlap, empty before normalising only",
    "overlap, zeros of both signs",
    "overlap, corners one step apart",
    "overlap, shared corners",
    "overlap, other pairs",
    "overlap, triples",
    "overlap, boxes alone",
];
const OF_TRIPLES: usize = 7;
const ALONE: usize = 8;

/// What was compared so far.
struct Overlap {
    groups: [Group; NAMES.len()],
    builds: usize,
    untouched: usize,
    /// How many pairs and triples have a common part that gives an entry.
    given: usize,
}

/// A table of a build, and who is asked about it.
struct Table<'a> {
    build: &'a Build,
    range: Range,
    port: &'a Port,
    rusts: &'a Rusts,
    zoom: u8,
}

/// Runs every group.
pub fn run(form: Form) -> ExitCode {
    let mut overlap = Overlap { groups: NAMES.map(Group::new), builds: 0, untouched: 0, given: 0 };
    builds::each(form, &mut Splitmix(111), |build, range, source| {
        overlap.build(build, range, source);
    });
    let Overlap { groups, builds, untouched, given } = overlap;
    println!(
        "builds with boxes inside boxes: {builds}, beside the untouched Rust too: {untouched}"
    );
    println!("pairs and triples whose common part gives an entry: {given}");
    finish("overlap", groups.into())
}

impl Overlap {
    /// Two tables of a build: the finest, and any.
    fn build(&mut self, build: &Build, range: Range, source: &mut Splitmix) {
        let port = match Port::loaded(build) {
            Ok(port) => port,
            Err(difference) => {
                return self.groups[ALONE].compare(|| build.name(), Some(difference));
            }
        };
        let rusts = Rusts::loaded(build);
        self.builds += 1;
        self.untouched += usize::from(rusts.are_two());
        let [least, most] = [build.state.coarsest(), build.state.finest()];
        for zoom in [most, least + source.below((most - least + 1) as u64) as usize] {
            let table = Table { build, range, port: &port, rusts: &rusts, zoom: zoom as u8 };
            self.table(&table, source);
        }
    }

    /// Lays boxes over the table, and asks for each, for every pair of them and for triples.
    fn table(&mut self, table: &Table, source: &mut Splitmix) {
        let pool = pool(&table.build.scene(), &table.range, BOXES, source);
        let lists: Vec<Entries> = pool.iter().map(|of| table.rusts.ask(*of, table.zoom)).collect();
        for (of, list) in pool.iter().zip(&lists) {
            let difference = table.port_differs(&[*of], list);
            self.groups[ALONE].compare(|| table.about(&[*of]), difference);
        }
        for a in 0..BOXES {
            for b in 0..BOXES {
                let of = [pool[a], pool[b]];
                let expected = shared(&lists[a], &lists[b]);
                let turned = shared(&lists[b], &lists[a]);
                let difference = other("in the second's order", &expected, &turned)
                    .or_else(|| table.pair_differs(of, &expected));
                let kind = Kind::of(of, &table.range) as usize;
                self.groups[kind].compare(|| table.about(&of), difference);
                self.given += usize::from(!expected.is_empty());
            }
        }
        for _ in 0..TRIPLES {
            let at = [(); 3].map(|()| source.below(BOXES as u64) as usize);
            let of = at.map(|at| pool[at]);
            let expected = shared(&shared(&lists[at[0]], &lists[at[1]]), &lists[at[2]]);
            let difference = table.triple_differs(of, &expected);
            self.groups[OF_TRIPLES].compare(|| table.about(&of), difference);
            self.given += usize::from(!expected.is_empty());
        }
    }
}

impl Table<'_> {
    /// How the answers for the common part of two boxes are not the entries that both give, if so.
    fn pair_differs(&self, [a, b]: [Corners; 2], expected: &Entries) -> Option<String> {
        let of = common(a, b);
        if empty(normalized(of, &self.range)) && !expected.is_empty() {
            return Some(format!("an empty common part of which both give {expected:?}"));
        }
        other("the Rust", expected, &self.rusts.ask(of, self.zoom))
            .or_else(|| self.port_differs(&[of, common(b, a)], expected))
    }

    /// The same of three boxes, cut in every order.
    fn triple_differs(&self, [a, b, c]: [Corners; 3], expected: &Entries) -> Option<String> {
        let orders = [[a, b, c], [a, c, b], [b, a, c], [b, c, a], [c, a, b], [c, b, a]];
        let cut =
            |[a, b, c]: &[Corners; 3]| [common(common(*a, *b), *c), common(*a, common(*b, *c))];
        let ways: Vec<Corners> = orders.iter().flat_map(cut).collect();
        other("the Rust", expected, &self.rusts.ask(ways[0], self.zoom))
            .or_else(|| self.port_differs(&ways, expected))
    }

    /// How the port's answer for one of these boxes is not this, if so. Boxes of the same bits are asked for once.
    fn port_differs(&self, ways: &[Corners], expected: &Entries) -> Option<String> {
        let bits = |of: &Corners| of.map(f64::to_bits);
        let mut asked = HashSet::new();
        ways.iter().filter(|of| asked.insert(bits(of))).find_map(|of| {
            let question = Question::Box { zoom: self.zoom, corners: *of };
            match self.port.answered(&question) {
                Ok(Outcome::List(answer)) if answer.refusal.is_none() => {
                    let case = Case { state: &self.port.state, lent: self.port.lent(), question };
                    let places = answer.items.iter();
                    let found: Option<Entries> = places.map(|place| case.entry(*place)).collect();
                    other("the port", Some(expected), found.as_ref())
                }
                otherwise => Some(format!("the port, for {of:?}: {otherwise:?}")),
            }
        })
    }

    fn about(&self, boxes: &[Corners]) -> String {
        format!("{}, zoom {}, {boxes:?}", self.build.name(), self.zoom)
    }
}

/// Those of the first that the second gives too, in the order of the first.
fn shared(first: &Entries, second: &Entries) -> Entries {
    let second: HashSet<_> = second.iter().collect();
    first.iter().filter(|entry| second.contains(entry)).copied().collect()
}
