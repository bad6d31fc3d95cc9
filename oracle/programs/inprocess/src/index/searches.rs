//! Both searches over one index, as a list in columns of several lengths, and by the cursor.

use super::{
    queries::Query,
    reference::{self, plain},
};
use crate::{
    report::{other, other_column, Group},
    GUARD,
};
use reachvolem::lent::{Index as Lent, Reply, NO_SLOT};
use splitmix::Splitmix;

/// What an output column holds before a search.
pub fn old_column(length: usize) -> Vec<u32> {
    (0..length as u32).map(|i| 0xe000_0000 | i).collect()
}

/// The groups of both searches and of the cursor.
pub struct Searches {
    range: Group,
    within: Group,
    cursor: Group,
}

impl Searches {
    pub fn new(range: &'static str, within: &'static str, cursor: &'static str) -> Searches {
        Searches {
            range: Group::new(range),
            within: Group::new(within),
            cursor: Group::new(cursor),
        }
    }

    pub fn groups(self) -> [Group; 3] {
        [self.range, self.within, self.cursor]
    }

    /// One query: its list in columns of several lengths, and the cursor's walk to the end.
    pub fn compare(
        &mut self,
        lent: &Lent,
        query: &Query,
        slots: &[usize],
        places: &[u32],
        about: impl Fn() -> String,
    ) {
        for room in rooms(places.len()) {
            let expected = reference::told(lent.count, places, &old_column(room));
            let difference = list_differs(lent, query, room, &expected);
            self.of(query).compare(|| format!("{}, room for {room}", about()), difference);
        }
        self.cursor.compare(&about, walk_differs(lent, query, slots, places));
    }

    /// One query that is refused before its walk.
    pub fn compare_refused(
        &mut self,
        lent: &Lent,
        query: &Query,
        number: u32,
        about: impl Fn() -> String,
    ) {
        let expected = (plain(number), old_column(3));
        self.of(query).compare(&about, list_differs(lent, query, 3, &expected));
        self.cursor.compare(&about, cursor_refusal_differs(lent, query, number));
    }

    /// The group of a query's list.
    fn of(&mut self, query: &Query) -> &mut Group {
        match query {
            Query::Range(_) => &mut self.range,
            Query::Within(_) => &mut self.within,
        }
    }

    /// The cursor set on a few slots, answered or not, and on numbers that are no slot.
    pub fn compare_any_slot(
        &mut self,
        lent: &Lent,
        query: &Query,
        source: &mut Splitmix,
        about: impl Fn() -> String,
    ) {
        let mut after = |slot, rest: &[usize]| {
            let difference = other("next", head(rest), query.after(lent, slot));
            self.cursor.compare(|| format!("{}, after slot {slot}", about()), difference);
        };
        for _ in 0..2 {
            let slot = source.below(lent.count as u64) as usize;
            after(slot, &reference::slots_after(lent, query, slot));
        }
        for slot in [lent.count, lent.count + 1, usize::MAX / 2 + 1, usize::MAX] {
            after(slot, &[]);
        }
    }
}

/// The reply of a cursor before which these slots lie.
fn head(slots: &[usize]) -> Reply {
    Reply { number: 0, carried: slots.first().copied().unwrap_or(NO_SLOT) }
}

/// Lengths of an output column for an answer of this length: longer, exact, one short, none.
fn rooms(length: usize) -> Vec<usize> {
    let mut rooms = vec![length + 3, length];
    rooms.extend(length.checked_sub(1));
    if length > 1 {
        rooms.push(0);
    }
    rooms
}

/// How the port's list in a column of this length differs from the expected reply and column.
pub fn list_differs(
    lent: &Lent,
    query: &Query,
    room: usize,
    expected: &(Reply, Vec<u32>),
) -> Option<String> {
    let mut whole = old_column(room + GUARD);
    let reply = query.ask(lent, &mut whole[..room]);
    let behind = &old_column(room + GUARD)[room..];
    other("reply", expected.0, reply)
        .or_else(|| other_column("out", &expected.1, &whole[..room]))
        .or_else(|| other_column("behind out", behind, &whole[room..]))
}

/// How the port's cursor, walked to its end, differs from these slots, and the ids in them from these
/// places.
pub fn walk_differs(lent: &Lent, query: &Query, slots: &[usize], places: &[u32]) -> Option<String> {
    let mut walked = Vec::with_capacity(slots.len());
    let mut reply = query.first(lent);
    while reply.number == 0 && reply.carried < lent.count && walked.len() <= lent.count {
        walked.push(reply.carried);
        reply = query.after(lent, reply.carried);
    }
    other_column("slots", slots, &walked)
        .or_else(|| other_places(lent, &walked, places))
        .or_else(|| other("end", head(&[]), reply))
}

/// How the first slot by the port's cursor differs from the reference's.
pub fn first_differs(lent: &Lent, query: &Query) -> Option<String> {
    other("first", head(&reference::slots(lent, query)), query.first(lent))
}

/// How the ids in these slots differ from the places, if they do.
pub fn other_places(lent: &Lent, slots: &[usize], places: &[u32]) -> Option<String> {
    let ids: Vec<u32> = slots.iter().map(|slot| lent.ids[*slot]).collect();
    other_column("places", places, &ids)
}

/// How a cursor that is refused differs from that refusal; it carries no slot.
pub fn cursor_refusal_differs(lent: &Lent, query: &Query, number: u32) -> Option<String> {
    let replies = [query.first(lent), query.after(lent, 0), query.after(lent, lent.count)];
    other("replies", [Reply { number, carried: NO_SLOT }; 3], replies)
}
