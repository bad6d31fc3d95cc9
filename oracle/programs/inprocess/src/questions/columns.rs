//! The output columns of a question: what they hold before it, and what is read from them after it.

use crate::{report::other_column, GUARD};
use asked::Rooms;
use questions::{Answer, Item, Out, Outcome, Question, Refusal};
use reachvolem::lent::Reply;

/// Output columns, with old contents and what stands behind them.
pub struct Columns {
    places: Vec<u32>,
    x: Vec<i64>,
    y: Vec<i64>,
}

impl Columns {
    /// Columns of this room that no question has written to.
    pub fn old(rooms: &Rooms) -> Columns {
        let [places, x, y] = rooms.map(|room| (room + GUARD) as u32);
        Columns {
            places: (0..places).map(|i| 0xe000_0000 | i).collect(),
            x: (0..x).map(|i| -(1 << 60) - i64::from(i)).collect(),
            y: (0..y).map(|i| (1 << 60) + i64::from(i)).collect(),
        }
    }

    /// What is lent of them.
    pub fn lent(&mut self, rooms: &Rooms) -> Out<'_> {
        let [places, x, y] = *rooms;
        Out { places: &mut self.places[..places], x: &mut self.x[..x], y: &mut self.y[..y] }
    }

    /// Where other columns differ from these, if they do.
    pub fn differ(&self, found: &Columns) -> Option<String> {
        other_column("places", &self.places, &found.places)
            .or_else(|| other_column("x", &self.x, &found.x))
            .or_else(|| other_column("y", &self.y, &found.y))
    }

    /// What a reply and these columns come to, where there was this room for all; or what is amiss with them.
    pub fn read(
        &self,
        question: &Question,
        reply: Reply,
        rooms: &Rooms,
    ) -> Result<Outcome, String> {
        let refusal = match reply.number {
            0 => None,
            number => Some(Refusal::numbered(number).ok_or_else(|| format!("refused {number}"))?),
        };
        let outcome = match question {
            _ if refusal.is_some() && reply.carried != 0 => Err("a refusal that carries a number"),
            Question::ExpansionZoom { .. } | Question::Tally { .. } => {
                Ok(Outcome::Number(refusal.map_or(Ok(reply.carried as u64), Err)))
            }
            _ if reply.carried > rooms[0] => Err("more items than there is room"),
            Question::Tile { .. } => {
                let items = (0..reply.carried).map(|at| self.item(at)).collect();
                Ok(Outcome::Tile(Answer { items, refusal }))
            }
            _ => {
                let items = self.places[..reply.carried].to_vec();
                Ok(Outcome::List(Answer { items, refusal }))
            }
        };
        let outcome = outcome.map_err(|how| format!("{how}: {reply:?}"))?;
        self.left_otherwise(&outcome, rooms).map_or(Ok(outcome), Err)
    }

    /// The item of a tile at a position.
    fn item(&self, at: usize) -> Item {
        Item { place: self.places[at], x: self.x[at], y: self.y[at] }
    }

    /// Where old contents do not stand past what an outcome lists, if so.
    fn left_otherwise(&self, outcome: &Outcome, rooms: &Rooms) -> Option<String> {
        let mut expected = Columns::old(rooms);
        outcome.told(&mut expected.lent(rooms));
        expected.differ(self)
    }
}
