//! The search of an index, as SCOPE's 'The index' says: an interval that is not split slot by slot; of any other the
//! median first, where it passes, next the right part and last the left one.

use crate::{state::Index, Refusal};

/// What is searched for.
#[derive(Clone, Copy, Debug)]
pub(crate) enum Query {
    /// Least x, least y, greatest x, greatest y.
    Range([f64; 4]),
    /// x and y of the centre, and the radius.
    Within([f64; 3]),
}

/// How many slots a search may still test, how many it has tested, and whether a test was left.
pub(crate) struct Allowance {
    pub left: usize,
    pub tested: usize,
    pub stopped: bool,
}

impl Allowance {
    pub fn of(left: usize) -> Allowance {
        Allowance { left, tested: 0, stopped: false }
    }

    /// A test that is due: it is made, or the search stops.
    fn spend(&mut self) -> Result<(), End> {
        match self.left.checked_sub(1) {
            Some(left) => {
                self.left = left;
                self.tested += 1;
                Ok(())
            }
            None => {
                self.stopped = true;
                Err(End::Stopped)
            }
        }
    }
}

/// How a search ends before its end: the walk over its answers stops, or is refused.
pub(crate) enum End {
    Stopped,
    Refused(Refusal),
}

impl From<Refusal> for End {
    fn from(refusal: Refusal) -> End {
        End::Refused(refusal)
    }
}

/// What is done with an answered place.
type Visit<'a> = dyn FnMut(usize) -> Result<(), End> + 'a;

/// Walks over the places that a search answers, in order. A slot that names a place past the table refuses
/// the walk.
pub(crate) fn walk(
    index: &Index,
    query: &Query,
    visit: &mut impl FnMut(usize) -> Result<(), End>,
) -> Result<(), Refusal> {
    walk_within(index, query, &mut Allowance::of(usize::MAX), visit)
}

/// The same over what it answers within an allowance of tests.
pub(crate) fn walk_within(
    index: &Index,
    query: &Query,
    allowance: &mut Allowance,
    visit: &mut impl FnMut(usize) -> Result<(), End>,
) -> Result<(), Refusal> {
    let last = index.ids.len() - 1;
    match (Search { index, query, allowance, visit }).interval(0, last, 0) {
        Ok(()) | Err(End::Stopped) => Ok(()),
        Err(End::Refused(refusal)) => Err(refusal),
    }
}

/// A search on its way. An interval goes from left to right, both slots included; axis 0 is x.
struct Search<'a, 'v> {
    index: &'a Index<'a>,
    query: &'a Query,
    allowance: &'a mut Allowance,
    visit: &'a mut Visit<'v>,
}

impl Search<'_, '_> {
    fn interval(&mut self, left: usize, right: usize, axis: usize) -> Result<(), End> {
        if right - left < self.index.node_size + 1 {
            return (left..=right).try_for_each(|slot| self.slot(slot));
        }
        let m = (left + right) / 2;
        self.slot(m)?;
        let (below, above) = self.goes(axis, self.index.coords[2 * m + axis]);
        if above {
            self.interval(m + 1, right, 1 - axis)?;
        }
        if below {
            self.interval(left, m - 1, 1 - axis)?;
        }
        Ok(())
    }

    /// Tests a slot, and answers it if it passes.
    fn slot(&mut self, slot: usize) -> Result<(), End> {
        self.allowance.spend()?;
        if !self.passes(self.index.coords[2 * slot], self.index.coords[2 * slot + 1]) {
            return Ok(());
        }
        let place = self.index.ids[slot] as usize;
        if place >= self.index.ids.len() {
            return Err(End::Refused(Refusal::Spoiled));
        }
        (self.visit)(place)
    }

    fn passes(&self, x: f64, y: f64) -> bool {
        match *self.query {
            Query::Range([min_x, min_y, max_x, max_y]) => {
                min_x <= x && x <= max_x && min_y <= y && y <= max_y
            }
            Query::Within([qx, qy, radius]) => {
                let (dx, dy) = (x - qx, y - qy);
                dx * dx + dy * dy <= radius * radius
            }
        }
    }

    /// Whether the part left of the split coordinate v is gone into, and the part right of it.
    fn goes(&self, axis: usize, v: f64) -> (bool, bool) {
        match *self.query {
            Query::Range(corners) => (corners[axis] <= v, v <= corners[2 + axis]),
            Query::Within(circle) => {
                let (q, d) = (circle[axis], v - circle[axis]);
                let far = circle[2] * circle[2] < d * d;
                (!(v < q && far), !(q < v && far))
            }
        }
    }
}
