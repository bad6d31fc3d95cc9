//! One question, asked of the port and of the reference: the reply, what it carries, and every output column to
//! its end.

use super::{columns::Columns, port::ask};
use crate::report::other;
use asked::{Rooms, Scene};
use questions::{Outcome, Question};
use reachvolem::lent::Reply;

/// How the port's answer differs from the reference's, if it does.
pub fn differs(
    scene: &Scene,
    question: &Question,
    outcome: &Outcome,
    rooms: &Rooms,
) -> Option<String> {
    let mut expected = Columns::old(rooms);
    let questions::Reply { number, carried } = outcome.told(&mut expected.lent(rooms));
    let mut found = Columns::old(rooms);
    let reply = ask(scene.state, &scene.lent, question, &mut found.lent(rooms));
    other("reply", Reply { number, carried: carried as usize }, reply)
        .or_else(|| expected.differ(&found))
}
