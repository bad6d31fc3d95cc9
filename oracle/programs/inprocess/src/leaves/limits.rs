//! The count of a cluster as limit, beside the Rust at limit 0 and offset 0, which lists all; and limit 0, which
//! lists nothing.

use super::Both;
use crate::report::{other, Group};

/// What was compared so far.
pub struct Limits {
    count: Group,
    none: Group,
}

impl Limits {
    pub fn new() -> Limits {
        Limits {
            count: Group::new("leaves, the count as limit, beside the Rust at 0"),
            none: Group::new("leaves, limit 0"),
        }
    }

    /// Every cluster of one build.
    pub fn compare(&mut self, both: &Both) {
        for (id, num) in both.clusters() {
            let about = |offset: u32| format!("{}, cluster {id}, offset {offset}", both.name());
            let all = other("lamps", both.rust(id, 0, 0), both.port(id, num, 0, num as usize));
            self.count.compare(|| about(0), all);
            for offset in [0, 1, num - 1, num, u32::MAX] {
                let none = other("lamps", Ok(Vec::new()), both.port(id, 0, offset, num as usize));
                self.none.compare(|| about(offset), none);
            }
        }
    }

    pub fn told(self) -> Vec<Group> {
        vec![self.count, self.none]
    }
}
