//! A question as a value, for those who ask many.

use crate::{
    children, expansion_zoom, in_box, leaves, ring, tally, tile, Answer, Item, Lent, Refusal,
    Reply, State,
};

/// A question to a build.
#[derive(Clone, Copy, Debug, PartialEq)]
pub enum Question {
    /// Least x, least y, greatest x, greatest y.
    Box {
        zoom: u8,
        corners: [f64; 4],
    },
    /// x, y, radius.
    Ring {
        zoom: u8,
        circle: [f64; 3],
    },
    Children {
        id: u32,
    },
    Leaves {
        id: u32,
        limit: u32,
        offset: u32,
    },
    ExpansionZoom {
        id: u32,
    },
    Tile {
        z: u8,
        x: u32,
        y: u32,
    },
    Tally {
        z: u8,
        x: u32,
        y: u32,
    },
}

/// What a question comes to: a list of places or lamp ids, the items of a tile, or a number.
#[derive(Clone, Debug, PartialEq)]
pub enum Outcome {
    List(Answer<u32>),
    Tile(Answer<Item>),
    Number(Result<u64, Refusal>),
}

/// The output columns: a list has the first alone, a tile all three, a number none.
#[derive(Debug)]
pub struct Out<'a> {
    pub places: &'a mut [u32],
    pub x: &'a mut [i64],
    pub y: &'a mut [i64],
}

impl Question {
    /// The number of its kind, in the order in which they stand above.
    pub fn kind(&self) -> usize {
        match self {
            Question::Box { .. } => 0,
            Question::Ring { .. } => 1,
            Question::Children { .. } => 2,
            Question::Leaves { .. } => 3,
            Question::ExpansionZoom { .. } => 4,
            Question::Tile { .. } => 5,
            Question::Tally { .. } => 6,
        }
    }

    /// Asks the reference.
    pub fn answered(&self, state: &State, lent: &Lent) -> Outcome {
        match *self {
            Question::Box { zoom, corners } => Outcome::List(in_box(state, lent, zoom, corners)),
            Question::Ring { zoom, circle } => Outcome::List(ring(state, lent, zoom, circle)),
            Question::Children { id } => Outcome::List(children(state, lent, id)),
            Question::Leaves { id, limit, offset } => {
                Outcome::List(leaves(state, lent, id, limit, offset))
            }
            Question::ExpansionZoom { id } => Outcome::Number(expansion_zoom(state, lent, id)),
            Question::Tile { z, x, y } => Outcome::Tile(tile(state, lent, z, x, y)),
            Question::Tally { z, x, y } => Outcome::Number(tally(state, lent, z, x, y)),
        }
    }
}

impl Outcome {
    /// What refuses it, if anything does.
    pub fn refusal(&self) -> Option<Refusal> {
        match self {
            Outcome::List(answer) => answer.refusal,
            Outcome::Tile(answer) => answer.refusal,
            Outcome::Number(number) => number.err(),
        }
    }

    /// How many items it lists; a number lists none.
    pub fn length(&self) -> usize {
        match self {
            Outcome::List(answer) => answer.items.len(),
            Outcome::Tile(answer) => answer.items.len(),
            Outcome::Number(_) => 0,
        }
    }

    /// Leaves what is listed in the output columns; the reply. Of a tile the shortest column is the room.
    pub fn told(&self, out: &mut Out) -> Reply {
        match self {
            Outcome::List(answer) => answer.told(out.places),
            Outcome::Tile(answer) => {
                let room = out.places.len().min(out.x.len()).min(out.y.len());
                for (at, item) in answer.left(room).iter().enumerate() {
                    (out.places[at], out.x[at], out.y[at]) = (item.place, item.x, item.y);
                }
                answer.reply(room)
            }
            Outcome::Number(Ok(number)) => Reply::done(*number),
            Outcome::Number(Err(refusal)) => Reply::refused(*refusal),
        }
    }
}
