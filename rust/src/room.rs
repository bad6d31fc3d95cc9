//! Room for answers: a question is asked with some, and once more with enough where it is refused 10, which carries the
//! whole length.

use crate::{lent::Reply, Refused};

/// For how many items there is room at first.
pub(crate) const FIRST_ROOM: usize = 256;

/// The number of the refusal for want of room.
pub(crate) const NO_ROOM: u32 = 10;

/// What a question lists.
pub(crate) fn listed(mut ask: impl FnMut(&mut [u32]) -> Reply) -> Result<Vec<u32>, Refused> {
    listed_in(FIRST_ROOM, |room| {
        let mut out = vec![0; room];
        (ask(&mut out), out)
    })
    .map(|(length, mut out)| {
        out.truncate(length);
        out
    })
}

/// Asks with this room, and once more with as much as it takes where that is too little. What is carried, and what else the
/// question left.
pub(crate) fn listed_in<T>(
    room: usize,
    mut ask: impl FnMut(usize) -> (Reply, T),
) -> Result<(usize, T), Refused> {
    let (mut reply, mut left) = ask(room);
    if reply.number == NO_ROOM {
        (reply, left) = ask(reply.carried);
    }
    reply.accepted().map(|carried| (carried, left))
}
