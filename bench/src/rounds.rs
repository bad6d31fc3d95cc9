//! Measures sides in turn: in every round each of them once, so that a change of the machine's pace meets all
//! of them. The order is always the same, so that for each side its own last turn lies equally far back, and no
//! side finds more of its data in the caches than another. One round before is not counted: it warms them.

/// What a side found: compared between the sides, so that they do the same and nothing is left undone.
#[derive(Clone, Copy, Debug, PartialEq, Eq)]
pub struct Found {
    /// How many.
    pub count: usize,
    /// Which ones, whatever their order.
    pub members: u64,
    /// Their order; nothing for a side that has another.
    pub order: Option<u64>,
}

impl Found {
    /// Whether another side found the same, as far as both say.
    fn alike(&self, other: &Found) -> bool {
        let order = self.order.is_none() || other.order.is_none() || self.order == other.order;
        self.count == other.count && self.members == other.members && order
    }
}

/// A side: its name, and its work, which gives what it found and the nanoseconds that it took.
pub struct Side<'a> {
    pub name: &'static str,
    pub work: Box<dyn FnMut() -> (Found, u64) + 'a>,
}

impl<'a> Side<'a> {
    pub fn new(name: &'static str, work: impl FnMut() -> (Found, u64) + 'a) -> Side<'a> {
        Side { name, work: Box::new(work) }
    }
}

/// The nanoseconds of each side, round by round, and what the first side found.
pub struct Measured {
    pub times: Vec<Vec<u64>>,
    pub found: Found,
}

/// Runs the rounds; an error says which sides did not find the same.
pub fn measured(rounds: usize, sides: &mut [Side]) -> Result<Measured, String> {
    let mut times = vec![Vec::with_capacity(rounds); sides.len()];
    let mut found = Vec::new();
    for round in 0..=rounds {
        for (side, times) in sides.iter_mut().zip(&mut times) {
            let (what, nanoseconds) = (side.work)();
            found.push((side.name, what));
            if round > 0 {
                times.push(nanoseconds);
            }
        }
    }
    all_alike(&found)?;
    Ok(Measured { times, found: found[0].1 })
}

/// Whether every two sides found the same in every round.
fn all_alike(found: &[(&str, Found)]) -> Result<(), String> {
    for (name, one) in found {
        for (other_name, other) in found {
            if !one.alike(other) {
                return Err(format!("{name} and {other_name} found {one:?} and {other:?}"));
            }
        }
    }
    Ok(())
}

/// The middle one of some numbers.
pub fn median(numbers: &[u64]) -> u64 {
    let mut sorted = numbers.to_vec();
    sorted.sort_unstable();
    sorted[sorted.len() / 2]
}
