//! The entries in a box within a stated effort (#102).

use crate::{
    boxes::{check, parts},
    search::{walk_within, Allowance, Query},
    Answer, Lent, Reply, State,
};

/// What a box comes to within an allowance: the answer, how many slots were tested over both halves of the box, and
/// whether a test was left.
#[derive(Clone, Debug, PartialEq)]
pub struct Effort {
    pub answer: Answer<u32>,
    pub tested: usize,
    pub stopped: bool,
}

/// The reply: what a box replies to what was found before the stop, and beside it the effort. A refusal other than 10
/// carries none.
#[derive(Clone, Copy, Debug, PartialEq, Eq)]
pub struct EffortReply {
    pub reply: Reply,
    pub tested: usize,
    pub stopped: bool,
}

/// The places in a box, as `in_box` has them, that are found within so many tests.
pub fn effort_box(state: &State, lent: &Lent, zoom: u8, corners: [f64; 4], tests: usize) -> Effort {
    let mut allowance = Allowance::of(tests);
    let answer = Answer::of(|places| {
        state.check_index(lent)?;
        check(&state.options.plane, &corners)?;
        let index = state.index(lent, state.zoom_used(zoom));
        for part in parts(&state.options.plane, corners) {
            let mut list = |place| {
                places.push(place as u32);
                Ok(())
            };
            walk_within(&index, &Query::Range(part), &mut allowance, &mut list)?;
        }
        Ok(())
    });
    Effort { answer, tested: allowance.tested, stopped: allowance.stopped }
}

impl Effort {
    /// Leaves the items in an output column; the reply.
    pub fn told(&self, out: &mut [u32]) -> EffortReply {
        let reply = self.answer.told(out);
        match self.answer.refusal {
            Some(_) => EffortReply { reply, tested: 0, stopped: false },
            None => EffortReply { reply, tested: self.tested, stopped: self.stopped },
        }
    }
}
