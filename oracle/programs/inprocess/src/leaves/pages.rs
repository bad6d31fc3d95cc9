//! Pages of leaves: every page of every size of a cluster, beside the Rust's, and all of a size put together beside
//! its whole list; and pages at or past the count, up to the largest offset.

use super::Both;
use crate::report::{other, Group};

/// What was compared so far.
pub struct Pages {
    page: Group,
    joined: Group,
    past: Group,
}

/// The pages of one size of one cluster.
struct Paging<'a> {
    both: &'a Both<'a>,
    id: u32,
    num: u32,
    size: u32,
}

impl Pages {
    pub fn new() -> Pages {
        Pages {
            page: Group::new("leaves, a page beside the Rust's"),
            joined: Group::new("leaves, the pages of a size put together"),
            past: Group::new("leaves, a page at or past the count"),
        }
    }

    /// Every size from 1 to the count and 1 more, of every cluster of one build.
    pub fn compare(&mut self, both: &Both) {
        for (id, num) in both.clusters() {
            let whole = both.rust(id, 0, 0);
            for size in 1..=num + 1 {
                let paging = Paging { both, id, num, size };
                let joined = Ok(self.turned(&paging));
                self.joined.compare(|| paging.name(0), other("lamps", whole.clone(), joined));
                self.past(&paging);
            }
        }
    }

    /// Each page, and its length: the size, or what is left. All that they list.
    fn turned(&mut self, paging: &Paging) -> Vec<usize> {
        let mut all = Vec::new();
        for offset in (0..paging.num).step_by(paging.size as usize) {
            let (ours, theirs) = (paging.port(offset), paging.rust(offset));
            let left = (paging.num - offset).min(paging.size) as usize;
            let length = other("length", left, ours.as_ref().map_or(0, Vec::len));
            all.extend(ours.iter().flatten());
            self.page.compare(|| paging.name(offset), other("page", theirs, ours).or(length));
        }
        all
    }

    /// Pages that are empty: the one after the last, one at the count, and others up to the largest offset.
    fn past(&mut self, paging: &Paging) {
        let Paging { num, size, .. } = *paging;
        for offset in [num.next_multiple_of(size), num, num + 1, u32::MAX - 1, u32::MAX] {
            let ours = paging.port(offset);
            let none = other("page", Ok(Vec::new()), ours.clone());
            let theirs = other("page", paging.rust(offset), ours);
            self.past.compare(|| paging.name(offset), none.or(theirs));
        }
    }

    pub fn told(self) -> Vec<Group> {
        vec![self.page, self.joined, self.past]
    }
}

impl Paging<'_> {
    /// The page at an offset, for a reader.
    fn name(&self, offset: u32) -> String {
        format!("{}, cluster {}, {} from {offset}", self.both.name(), self.id, self.size)
    }

    /// What the port lists, in a column that has room for just a page.
    fn port(&self, offset: u32) -> Result<Vec<usize>, String> {
        self.both.port(self.id, self.size, offset, self.size as usize)
    }

    fn rust(&self, offset: u32) -> Result<Vec<usize>, String> {
        self.both.rust(self.id, self.size, offset)
    }
}
