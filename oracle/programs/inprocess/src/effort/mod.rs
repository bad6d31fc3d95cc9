//! A box within a stated effort (#102): every allowance of small builds beside the Rust that counts its tests;
//! and over tables that no build made, beside the reference. The judge is the first so many of the tests that the
//! counted Rust tells of; its patch names the slot's place, so that places are compared. Before a call `stopped`
//! says either, so that a reply that does not tell it shows.
//!
//! That this can fail was tried in the short form as it was: with expectations of one test more 596,570 of 782,804
//! cases beside the Rust differed and 101,865 of 182,599 over spoiled tables; with a stop at exactly enough 62,078;
//! with a reference whose count begins anew in the second half 94,409 of 391,402 of its cases beside the Rust and
//! 9,207 over spoiled tables, and with one that tests left before right 193,511 and 29,974.

mod builds;
mod expected;
mod spoiled;

use crate::{
    package::as_asked,
    questions::{columns::Columns, port::Port},
    report::{finish, other, Group},
    Form,
};
use asked::{Build, Scene};
use beside::{
    judge::{tests, Counted, Test},
    Case, Rust, Said,
};
use expected::{Found, Replies};
use questions::{effort_box, in_box, Answer, Lent, Outcome, Question, State};
use reachvolem::lent::{EffortReply, Reply};
use splitmix::Splitmix;
use std::process::ExitCode;

/// How many times a build is asked a box of every kind.
const TIMES: usize = 2;

/// The names of the groups over builds.
const NAMES: [&str; 5] = [
    "effort, every allowance beside the Rust",
    "effort, across the date line beside the Rust",
    "effort, the tests of the Rust beside its answer",
    "effort, the reference beside the Rust",
    "effort, refused boxes beside the reference",
];
const ONE: usize = 0;
const ACROSS: usize = 1;
const TESTS: usize = 2;
const REFERENCE: usize = 3;
const REFUSED: usize = 4;

/// What was compared so far.
struct Efforts {
    groups: [Group; NAMES.len()],
    builds: usize,
    on_the_globe: usize,
    replies: Replies,
}

/// A build, and who is asked about it.
struct Asked<'a> {
    build: &'a Build,
    port: Port,
    rust: Rust<Counted>,
}

/// Runs every group.
pub fn run(form: Form) -> ExitCode {
    let groups = NAMES.map(Group::new);
    let mut efforts = Efforts { groups, builds: 0, on_the_globe: 0, replies: Replies::new() };
    let mut source = Splitmix(102);
    builds::each(form, &mut source, |build, source| efforts.build(build, source));
    let Efforts { groups, builds, on_the_globe, replies } = efforts;
    println!("builds with boxes within an effort: {builds}, of longitudes: {on_the_globe}");
    replies.print("over builds");
    let mut groups: Vec<Group> = groups.into();
    groups.push(spoiled::run(form, &mut source));
    finish("effort", groups)
}

impl Efforts {
    /// Boxes of every kind.
    fn build(&mut self, build: &Build, source: &mut Splitmix) {
        let port = match Port::loaded(build) {
            Ok(port) => port,
            Err(difference) => {
                return self.groups[ONE].compare(|| build.name(), Some(difference));
            }
        };
        let asked = Asked { build, port, rust: Rust::loaded(build) };
        self.builds += 1;
        self.on_the_globe += usize::from(build.on_the_globe);
        for question in asked::all_boxes(&build.scene(), TIMES, source) {
            let Question::Box { zoom, corners } = question else {
                unreachable!("a box");
            };
            let plain = in_box(&asked.port.state, &asked.port.lent(), zoom, corners);
            match plain.refusal {
                Some(_) => self.refused(&asked, zoom, corners),
                None => self.taken(&asked, zoom, corners, source),
            }
        }
    }

    /// A box that is refused: nothing is tested, whatever is allowed.
    fn refused(&mut self, asked: &Asked, zoom: u8, corners: [f64; 4]) {
        for allowance in [0, 1, usize::MAX] {
            let effort =
                effort_box(&asked.port.state, &asked.port.lent(), zoom, corners, allowance);
            let found = Found::by(&effort, allowance);
            let difference = found.differs(&asked.port.state, &asked.port.lent(), zoom, corners, 2);
            let about = || asked.about(zoom, corners, allowance);
            self.groups[REFUSED].compare(about, difference);
            self.replies.count(&found, 2);
        }
    }

    /// A box that is taken: every allowance from none to one more than the tests, and no limit.
    fn taken(&mut self, asked: &Asked, zoom: u8, corners: [f64; 4], source: &mut Splitmix) {
        let (state, lent) = (&asked.port.state, &asked.port.lent());
        let question = Question::Box { zoom, corners };
        let (tests, difference) = asked.counted(&question);
        let about = || asked.about(zoom, corners, usize::MAX);
        self.groups[TESTS].compare(about, difference);
        let group = if asked.halves(corners) == 2 { ACROSS } else { ONE };
        for allowance in (0..=tests.len() + 1).chain([usize::MAX]) {
            let about = || asked.about(zoom, corners, allowance);
            let found = Found::after(&tests, allowance);
            let reference =
                Found::by(&effort_box(state, lent, zoom, corners, allowance), allowance);
            self.groups[REFERENCE].compare(about, other("reference", &found, &reference));
            let short = found.items.len().saturating_sub(1 + source.below(2) as usize);
            for room in [found.items.len() + source.below(3) as usize, short] {
                let difference = found.differs(state, lent, zoom, corners, room);
                self.groups[group].compare(about, difference);
                self.replies.count(&found, room);
            }
        }
    }
}

impl Asked<'_> {
    /// The tests that the Rust makes for a box, over both of its halves; and how what they find is not what it answers,
    /// or the port's box not that, if so.
    fn counted(&self, question: &Question) -> (Vec<Test>, Option<String>) {
        let _ = tests();
        let said = self.rust.ask(self.build, question);
        let tests = tests();
        let case = Case { state: &self.port.state, lent: self.port.lent(), question: *question };
        let Some(Said::Items(items)) = said else {
            return (tests, Some(format!("the Rust says {said:?}")));
        };
        let passing = tests.iter().filter(|(_, passes)| *passes);
        let places: Vec<u32> = passing.map(|(place, _)| *place as u32).collect();
        let theirs: Vec<_> = items.iter().map(|item| Some((item.id, item.num))).collect();
        let ours: Vec<_> = places.iter().map(|place| case.entry(*place)).collect();
        let plain = Outcome::List(Answer { items: places, refusal: None });
        let by_port = self.port.answered(question);
        let difference = other("what the Rust's tests find", &theirs, &ours)
            .or_else(|| other("the port's box", &Ok(plain), &by_port));
        (tests, difference)
    }

    /// How many searches a box comes to.
    fn halves(&self, corners: [f64; 4]) -> usize {
        questions::searches(&self.port.state.options.plane, corners)
    }

    fn about(&self, zoom: u8, corners: [f64; 4], allowance: usize) -> String {
        format!("{}, zoom {zoom}, {corners:?}, allowance {allowance}", self.build.name())
    }
}
