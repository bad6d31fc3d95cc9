//! What is expected of a box within an effort, and how the port's answer is not that.

use super::{as_asked, other, Columns, EffortReply, Lent, Reply, State, Test};
use questions::{Effort, Refusal};
use std::collections::BTreeMap;

/// What is found within an allowance; or what refuses it, with what was listed before.
#[derive(Debug, PartialEq)]
pub struct Found {
    allowance: usize,
    pub items: Vec<u32>,
    refusal: Option<Refusal>,
    tested: usize,
    stopped: bool,
}

impl Found {
    /// By the first tests of a search that makes these.
    pub fn after(tests: &[Test], allowance: usize) -> Found {
        let made = &tests[..tests.len().min(allowance)];
        let passing = made.iter().filter(|(_, passes)| *passes);
        Found {
            allowance,
            items: passing.map(|(place, _)| *place as u32).collect(),
            refusal: None,
            tested: made.len(),
            stopped: allowance < tests.len(),
        }
    }

    /// As the reference has it.
    pub fn by(effort: &Effort, allowance: usize) -> Found {
        let Effort { answer, tested, stopped } = effort.clone();
        Found { allowance, items: answer.items, refusal: answer.refusal, tested, stopped }
    }

    /// The reply, where the column has this room.
    fn reply(&self, room: usize) -> EffortReply {
        let carried = self.items.len();
        let (number, carried, tested, stopped) = match self.refusal {
            Some(refusal) => (refusal as u32, 0, 0, false),
            None if carried > room => (10, carried, self.tested, self.stopped),
            None => (0, carried, self.tested, self.stopped),
        };
        EffortReply { reply: Reply { number, carried }, tested, stopped }
    }

    /// How the port's reply and its column are not this, if so.
    pub fn differs(
        &self,
        state: &State,
        lent: &Lent,
        zoom: u8,
        corners: [f64; 4],
        room: usize,
    ) -> Option<String> {
        let rooms = [room, 0, 0];
        let [mut expected, mut found] = [(); 2].map(|()| Columns::old(&rooms));
        let left = self.items.len().min(room);
        expected.lent(&rooms).places[..left].copy_from_slice(&self.items[..left]);
        let out = found.lent(&rooms).places;
        let reply = as_asked(state, lent).box_effort(zoom, corners, self.allowance, out);
        other("reply", self.reply(room), reply).or_else(|| expected.differ(&found))
    }
}

/// How often each number of a reply came, and whether it was stopped.
pub struct Replies(BTreeMap<(u32, bool), usize>);

impl Replies {
    pub fn new() -> Replies {
        Replies(BTreeMap::new())
    }

    pub fn count(&mut self, found: &Found, room: usize) {
        let EffortReply { reply, stopped, .. } = found.reply(room);
        *self.0.entry((reply.number, stopped)).or_default() += 1;
    }

    pub fn print(&self, over: &str) {
        for ((number, stopped), times) in &self.0 {
            let how = if *stopped { "stopped" } else { "not stopped" };
            println!("{over}, reply {number}, {how}: {times}");
        }
    }
}
