//! SCOPE's rounded edge, reached by a text: there the untouched Rust skips an entry that passes the distance test if the
//! index is split, and so makes other tables. By #106 nothing is skipped, and an index that is not split makes the same.

use super::Draft;

/// The centre of a cluster of 36 lamps, in parts; as it is computed it is one step of the format less.
const CENTRE: u64 = 9_928;

/// Of these lamps 35 meet first: the sum of their x. Their centre times 35, rounded, is no longer this.
const FIRST: u64 = 337_214;

/// A lamp at x = 1 and two clusters, one beside it and one below, with the radius of zoom 0 just reaching from
/// the lamp to the centre of the first. Both centres have the same x. With node_size 1 the cluster below is the
/// median, and the one beside the lamp is in the part on its left, which the rounded edge cuts off in the
/// untouched Rust.
pub fn rounded_edge(node_size: u64) -> Draft {
    let mut points = vec![[65_536, 32_768, 1_000]];
    for y in [65_000, 32_768] {
        let (each, more) = (FIRST / 35, FIRST % 35);
        points.extend((0..35).map(|i| [each + u64::from(i < more), y, i]));
        points.push([36 * CENTRE - FIRST, y, 9_999_999]);
    }
    Draft::new([0, 3, 2, 65_536 - CENTRE, 65_536, node_size], points)
}

#[cfg(test)]
mod tests {
    use super::*;
    use crate::{answer_to, lines::build_of, read};
    use columns::Given;
    use rust_builds::untouched;

    /// The nums of the last table.
    fn nums(node_size: u64) -> Vec<String> {
        let printed =
            String::from_utf8(answer_to(&rounded_edge(node_size).text()).printed).unwrap();
        let last = printed.lines().filter(|line| line.starts_with("0 "));
        last.map(|line| line.rsplit(' ').nth(1).unwrap().to_string()).collect()
    }

    /// The same by the untouched Rust.
    fn untouched_nums(node_size: u64) -> Vec<u32> {
        let input = read(&rounded_edge(node_size).text()).unwrap();
        let (options, [xs, ys], energies) = build_of(&input);
        let given = Given { xs: &xs, ys: &ys, energies: &energies };
        let tables = untouched::tables(&options, &given);
        let [start, len] = [tables.starts[0], tables.lens[0]].map(|number| number as usize);
        tables.columns.num[start..start + len].to_vec()
    }

    #[test]
    fn the_edge_is_reached() {
        assert_eq!(untouched_nums(1), [1, 72]);
        assert_eq!(untouched_nums(64), [37, 36]);
    }

    #[test]
    fn nothing_is_skipped_at_the_edge() {
        assert_eq!(nums(1), ["37", "36"]);
        assert_eq!(nums(64), ["37", "36"]);
    }
}
