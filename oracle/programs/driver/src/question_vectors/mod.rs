//! Test vectors for the questions, one case a line: a state with its columns, and what is asked of it. They are made
//! by the reference; where the patched Rust can be asked over the same tables, it is, and this stops where it says
//! something else that is not listed. Words are as those of the index; a line is broken here to be read.
//!
//!     (options, as in the vectors of the build)
//!     count   start ..   len ..   length x ..   length y ..   length seen ..   length id ..
//!     length parent ..   length num ..   length energy ..   length ids ..   length coords ..   k   question ..
//!
//! `count` is N; starts and lengths are those of the zooms 0 to 31. A question is its kind, its numbers, the lengths
//! of its output columns, and what is expected:
//!
//! | kind | question | numbers | and then |
//! |---|---|---|---|
//! | 0 | box | zoom, least x, least y, greatest x, greatest y | room number carried w, w places |
//! | 1 | ring | zoom, x, y, radius | room number carried w, w places |
//! | 2 | children | id | room number carried w, w places |
//! | 3 | leaves | id, limit, offset | room number carried w, w ids of lamps |
//! | 4 | expansion zoom | id | number carried |
//! | 5 | tile | z, x, y | three rooms, number carried w, w places, w times x, w times y |
//! | 6 | tally | z, x, y | number carried |
//!
//! `number` is that of the reply, 0 where nothing is refused, and `carried` what it carries. The w items are what is
//! left at the front of the output columns; behind them the old contents stay. There are 86 cases with 902
//! questions, of at most 64 entries, 64 questions and 64 items or room for items. y on the globe is given, and the
//! Rust is asked only where it is that of a pole or of the equator, so that no number differs from machine to
//! machine.

mod cases;
mod changed;
mod fences;

use crate::{load_vectors::option_words, questions::Over};
use asked::{Build, Rooms};
use beside::Verdict;
use cases::Case;
use columns::{width, Read, Value};
use questions::{Out, Outcome, Question, State};
use std::io::{self, Write};

/// The most entries in a column, questions in a case, and items in an answer or an output column; of coordinates
/// there are two to an entry.
const MOST: usize = 64;

/// Writes the cases.
pub fn write(out: &mut impl Write) -> io::Result<()> {
    for case in cases::all() {
        held_to_the_rust(&case);
        let words = words(&case).iter().map(|word| format!("{word:016x}")).collect::<Vec<_>>();
        out.write_all((words.join(" ") + "\n").as_bytes())?;
    }
    out.flush()
}

/// Stops where the Rust says something else that is not listed.
fn held_to_the_rust(Case { build, questions }: &Case) {
    let Some(over) = Over::of(build) else {
        return;
    };
    for (question, _) in questions {
        let outcome = question.answered(&build.state, &build.columns.lent());
        if let Some(Verdict::Different(how)) = over.judged(*question, &outcome) {
            panic!("{}, {question:?}: {how}", build.name());
        }
    }
}

/// The words of a case.
fn words(Case { build, questions }: &Case) -> Vec<u64> {
    let mut words = option_words(&build.state.options);
    words.extend(state_words(&build.state));
    let mut columns = Words(Vec::new());
    build.columns.lent().read(&mut columns);
    words.extend(columns.0);
    words.push(bounded(questions.len()));
    for (question, rooms) in questions {
        words.extend(question_words(question));
        words.extend(answer_words(build, question, rooms));
    }
    words
}

/// A number that is at most the most.
fn bounded(number: usize) -> u64 {
    assert!(number <= MOST, "{number} is too large for a case");
    number as u64
}

/// The bits of a number; one pattern for every NaN.
fn bits<T: Value>(v: T) -> u64 {
    if v != v {
        f64::NAN.bits()
    } else {
        v.bits()
    }
}

/// N, where the table of each zoom starts, and how long each is.
fn state_words(state: &State) -> Vec<u64> {
    let mut words = vec![u64::from(state.count)];
    words.extend(state.starts.map(u64::from));
    words.extend(state.lens.map(u64::from));
    words
}

/// The words of the columns, each with its length before it.
struct Words(Vec<u64>);

impl Read for Words {
    fn column<T: Value>(&mut self, name: &'static str, column: &[T]) {
        assert!(column.len() <= MOST * width(name), "{name} is too long for a case");
        self.0.push(column.len() as u64);
        self.0.extend(column.iter().map(|v| bits(*v)));
    }
}

/// The kind of a question and its words.
fn question_words(question: &Question) -> Vec<u64> {
    match *question {
        Question::Box { zoom, corners } => {
            let corners = corners.map(bits);
            [&[0, u64::from(zoom)], &corners[..]].concat()
        }
        Question::Ring { zoom, circle } => {
            let circle = circle.map(bits);
            [&[1, u64::from(zoom)], &circle[..]].concat()
        }
        Question::Children { id } => vec![2, u64::from(id)],
        Question::Leaves { id, limit, offset } => {
            vec![3, u64::from(id), u64::from(limit), u64::from(offset)]
        }
        Question::ExpansionZoom { id } => vec![4, u64::from(id)],
        Question::Tile { z, x, y } => vec![5, u64::from(z), u64::from(x), u64::from(y)],
        Question::Tally { z, x, y } => vec![6, u64::from(z), u64::from(x), u64::from(y)],
    }
}

/// The lengths of the output columns, the number of the reply, what it carries, and the items that are left in
/// the columns, column by column: only the reply where there are none.
fn answer_words(build: &Build, question: &Question, rooms: &Rooms) -> Vec<u64> {
    let outcome = question.answered(&build.state, &build.columns.lent());
    let (mut places, mut x, mut y) = (vec![0; rooms[0]], vec![0; rooms[1]], vec![0; rooms[2]]);
    let reply = outcome.told(&mut Out { places: &mut places, x: &mut x, y: &mut y });
    let reply = [u64::from(reply.number), reply.carried];
    match outcome {
        Outcome::List(answer) => {
            let left = answer.left(rooms[0]);
            let mut words = vec![bounded(rooms[0]), reply[0], reply[1], bounded(left.len())];
            words.extend(left.iter().map(|place| u64::from(*place)));
            words
        }
        Outcome::Tile(answer) => {
            let left = answer.left(*rooms.iter().min().expect("three rooms"));
            let mut words = rooms.map(bounded).to_vec();
            words.extend([reply[0], reply[1], bounded(left.len())]);
            words.extend(left.iter().map(|item| u64::from(item.place)));
            words.extend(left.iter().map(|item| item.x as u64));
            words.extend(left.iter().map(|item| item.y as u64));
            words
        }
        Outcome::Number(_) => reply.to_vec(),
    }
}
