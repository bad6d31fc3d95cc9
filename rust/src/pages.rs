//! The lamps of a cluster, page by page.

use crate::{Refused, Tables};

/// The pages of a cluster's lamps, until one is not full. After a refusal there is no other page.
#[derive(Clone, Debug)]
pub struct LeafPages<'a> {
    tables: Tables<'a>,
    cluster_id: u32,
    size: u32,
    /// The page that comes next, if one does.
    next: Option<u32>,
}

impl<'a> LeafPages<'a> {
    /// From the first page on.
    pub(crate) fn new(tables: Tables<'a>, cluster_id: u32, size: u32) -> LeafPages<'a> {
        LeafPages { tables, cluster_id, size, next: Some(0) }
    }
}

impl Iterator for LeafPages<'_> {
    type Item = Result<Vec<u32>, Refused>;

    fn next(&mut self) -> Option<Self::Item> {
        let number = self.next.take()?;
        let page = self.tables.leaves_page(self.cluster_id, number, self.size);
        let length = page.as_ref().map_or(0, Vec::len);
        if length > 0 && length == self.size as usize {
            self.next = number.checked_add(1);
        }
        Some(page).filter(|page| page.is_err() || length > 0)
    }
}
