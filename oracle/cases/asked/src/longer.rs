//! Columns that are longer than their tables.

use columns::{Change, Columns, Value};
use splitmix::Splitmix;

/// Up to three entries more in each column, which belong to no table and look as if they did.
pub fn lengthen(columns: &mut Columns, source: &mut Splitmix) {
    columns.change(&mut Longer(source));
}

/// Up to three entries of a column once more.
struct Longer<'a>(&'a mut Splitmix);

impl Change for Longer<'_> {
    fn column<T: Value>(&mut self, _: &'static str, column: &mut Vec<T>) {
        let Longer(source) = self;
        for _ in 0..source.below(4) {
            column.push(source.pick(column));
        }
    }
}
