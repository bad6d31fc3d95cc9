//! The port, asked a question over a state and columns; and its own build of points, asked with room for all.

use super::columns::Columns;
use crate::{
    package::{as_asked, needed},
    tables::Request,
};
use asked::{Build, Rooms};
use questions::{Lent, Out, Outcome, Question, State};
use reachvolem::lent::Reply;

/// The port's own build of the points of a build: its state and its columns.
pub struct Port {
    pub state: State,
    columns: columns::Columns,
    owners: Vec<u32>,
}

impl Port {
    /// The points, loaded; or how the tables are not the Rust's, which are those of the build.
    pub fn loaded(build: &Build) -> Result<Port, String> {
        let State { options, count, starts, lens } = &build.state;
        let lengths = needed(options, *count as usize);
        let outcome = Request { options, given: build.given(), lengths }.made();
        match outcome.is_not_of(&build.columns.lent(), [starts, lens]) {
            Some(difference) => Err(format!("the port's tables are others: {difference}")),
            None => {
                let (left, [starts, lens]) = outcome.left();
                let state = State { options: *options, count: *count, starts, lens };
                Ok(Port { state, columns: left.tables, owners: left.owners })
            }
        }
    }

    /// The columns that its questions are lent: they end with the last table.
    pub fn lent(&self) -> Lent<'_> {
        let entries = self.state.lens.iter().map(|length| *length as usize).sum();
        self.columns.lent().fronts(columns::needed(entries))
    }

    /// The column of the owners, without what stands behind it.
    pub fn owners(&self) -> &[u32] {
        &self.owners[..self.state.options.tables() * self.state.count as usize]
    }

    /// What it answers, as it stands in columns with room for all; or what is amiss with that.
    pub fn answered(&self, question: &Question) -> Result<Outcome, String> {
        let rooms = self.room_for_all(question);
        let mut columns = Columns::old(&rooms);
        let reply = ask(&self.state, &self.lent(), question, &mut columns.lent(&rooms));
        columns.read(question, reply, &rooms)
    }

    /// A tile may list an entry three times, in its middle and in two strips; no other question lists it so often.
    fn room_for_all(&self, question: &Question) -> Rooms {
        let room = 3 * self.state.count as usize;
        match question {
            Question::ExpansionZoom { .. } | Question::Tally { .. } => [0; 3],
            Question::Tile { .. } => [room; 3],
            _ => [room, 0, 0],
        }
    }
}

/// Asks the port.
pub fn ask(state: &State, lent: &Lent, question: &Question, out: &mut Out) -> Reply {
    let asked = as_asked(state, lent);
    match *question {
        Question::Box { zoom, corners } => asked.in_box(zoom, corners, out.places),
        Question::Ring { zoom, circle } => asked.ring(zoom, circle, out.places),
        Question::Children { id } => asked.children(id, out.places),
        Question::Leaves { id, limit, offset } => asked.leaves(id, limit, offset, out.places),
        Question::ExpansionZoom { id } => asked.expansion_zoom(id),
        Question::Tile { z, x, y } => asked.tile((z, x, y), out.places, out.x, out.y),
        Question::Tally { z, x, y } => asked.tally((z, x, y)),
    }
}
