//! An independent reference for the index, written from the scope's text: what is refused and in which order,
//! the slots that a search answers and their order, and what then stands in the output column. It takes
//! any columns.

use super::queries::Query;
use options::MOST_POINTS;
use reachvolem::lent::{Index as Lent, Reply};

/// A reply that carries nothing.
pub fn plain(number: u32) -> Reply {
    Reply { number, carried: 0 }
}

fn node_size_in_bounds(node_size: usize) -> bool {
    (1..=65_535).contains(&node_size)
}

fn count_in_bounds(count: usize) -> bool {
    (1..=MOST_POINTS).contains(&count)
}

/// The refusal of a build: 1, 2, 3, 4, whichever holds first.
pub fn build_refusal(
    node_size: usize,
    xs: &[f64],
    ys: &[f64],
    ids_length: usize,
    coords_length: usize,
) -> Option<Reply> {
    let in_unit = |v: f64| (0.0..=1.0).contains(&v);
    if !node_size_in_bounds(node_size) {
        return Some(plain(1));
    }
    if !count_in_bounds(xs.len()) || ys.len() != xs.len() {
        return Some(plain(2));
    }
    let outside = xs.iter().zip(ys).position(|(x, y)| !(in_unit(*x) && in_unit(*y)));
    if let Some(carried) = outside {
        return Some(Reply { number: 3, carried });
    }
    (ids_length < xs.len() || coords_length < 2 * xs.len()).then_some(plain(4))
}

/// The refusal of a search before its walk: 11 for what it is lent, then 9 for its numbers. A cursor is
/// lent no ids.
pub fn search_refusal(lent: &Lent, query: &Query, with_ids: bool) -> Option<u32> {
    let in_bounds = node_size_in_bounds(lent.node_size) && count_in_bounds(lent.count);
    let short_ids = with_ids && lent.ids.len() < lent.count;
    if !in_bounds || short_ids || lent.coords.len() < 2 * lent.count {
        return Some(11);
    }
    let finite = query.numbers().iter().all(|number| number.is_finite());
    let negative = matches!(query, Query::Within([_, _, radius]) if *radius < 0.0);
    (!finite || negative).then_some(9)
}

/// The slots that a search answers, in order.
pub fn slots(lent: &Lent, query: &Query) -> Vec<usize> {
    let mut walk = Walk { lent, query, answer: Vec::new() };
    walk.interval(0, lent.count - 1, 0);
    walk.answer
}

/// What is left of a search after a slot, whether that slot is answered or not: the walk goes on from
/// there as if it had come there.
pub fn slots_after(lent: &Lent, query: &Query, slot: usize) -> Vec<usize> {
    let mut walk = Walk { lent, query, answer: Vec::new() };
    walk.rest(0, lent.count - 1, 0, slot);
    walk.answer
}

/// A search on its way. An interval goes from left to right, both slots included; axis 0 is x.
struct Walk<'a> {
    lent: &'a Lent<'a>,
    query: &'a Query,
    answer: Vec<usize>,
}

impl Walk<'_> {
    fn interval(&mut self, left: usize, right: usize, axis: usize) {
        if !self.split(left, right) {
            (left..=right).for_each(|slot| self.slot(slot));
            return;
        }
        let m = (left + right) / 2;
        self.slot(m);
        self.right_part(m, right, axis);
        self.left_part(left, m, axis);
    }

    fn rest(&mut self, left: usize, right: usize, axis: usize, slot: usize) {
        let m = (left + right) / 2;
        if !self.split(left, right) {
            (slot + 1..=right).for_each(|slot| self.slot(slot));
        } else if slot < m {
            self.rest(left, m - 1, 1 - axis, slot);
        } else {
            match slot == m {
                true => self.right_part(m, right, axis),
                false => self.rest(m + 1, right, 1 - axis, slot),
            }
            self.left_part(left, m, axis);
        }
    }

    fn split(&self, left: usize, right: usize) -> bool {
        right - left + 1 > self.lent.node_size + 1
    }

    /// What stands right of m, unless it is skipped.
    fn right_part(&mut self, m: usize, right: usize, axis: usize) {
        if goes(self.query, axis, self.lent.coords[2 * m + axis]).1 {
            self.interval(m + 1, right, 1 - axis);
        }
    }

    /// What stands left of m, unless it is skipped.
    fn left_part(&mut self, left: usize, m: usize, axis: usize) {
        if goes(self.query, axis, self.lent.coords[2 * m + axis]).0 {
            self.interval(left, m - 1, 1 - axis);
        }
    }

    fn slot(&mut self, slot: usize) {
        if passes(self.query, self.lent.coords[2 * slot], self.lent.coords[2 * slot + 1]) {
            self.answer.push(slot);
        }
    }
}

/// Whether a point is answered.
fn passes(query: &Query, x: f64, y: f64) -> bool {
    match *query {
        Query::Range([min_x, min_y, max_x, max_y]) => {
            min_x <= x && x <= max_x && min_y <= y && y <= max_y
        }
        Query::Within([qx, qy, radius]) => {
            let (dx, dy) = (x - qx, y - qy);
            dx * dx + dy * dy <= radius * radius
        }
    }
}

/// Whether the part left of the split coordinate v is gone into, and the part right of it: in a box by its
/// edges; around a place a part is skipped only behind v, where v itself is too far on the axis.
fn goes(query: &Query, axis: usize, v: f64) -> (bool, bool) {
    match *query {
        Query::Range(corners) => (corners[axis] <= v, v <= corners[2 + axis]),
        Query::Within(circle) => {
            let (q, d) = (circle[axis], v - circle[axis]);
            let far = circle[2] * circle[2] < d * d;
            (!(v < q && far), !(q < v && far))
        }
    }
}

/// The reply of a search whose walk finds these places, and the output column afterwards: the first
/// items, as many as fit, then what it held before.
pub fn told(count: usize, places: &[u32], old: &[u32]) -> (Reply, Vec<u32>) {
    let sound = places.iter().take_while(|place| (**place as usize) < count).count();
    let mut column = old.to_vec();
    let fit = sound.min(column.len());
    column[..fit].copy_from_slice(&places[..fit]);
    let reply = match places.len() {
        length if sound < length => plain(11),
        length if length > column.len() => Reply { number: 10, carried: length },
        length => Reply { number: 0, carried: length },
    };
    (reply, column)
}

/// A whole search: refused, or walked and told.
pub fn searched(lent: &Lent, query: &Query, old: &[u32]) -> (Reply, Vec<u32>) {
    match search_refusal(lent, query, true) {
        Some(number) => (plain(number), old.to_vec()),
        None => {
            let slots = slots(lent, query);
            let places: Vec<u32> = slots.iter().map(|slot| lent.ids[*slot]).collect();
            told(lent.count, &places, old)
        }
    }
}
