//! The texts of the stored cases: few enough and short enough to be kept, and of every kind.

use super::{
    at_bounds,
    damage::{Damage, DAMAGES},
    example, rounded_edge, spread, Draft,
};
use splitmix::Splitmix;
use std::collections::HashSet;

const SEED: u64 = 1;

/// The most bytes of a stored text that is damaged, and the most points of one whose tables may be long.
const MOST_BYTES: usize = 20_000;
const MOST_POINTS: usize = 100;

/// Options of the small cases, in turn: their numbers meet in many ways.
const MIN_POINTS: [u64; 7] = [2, 3, 2, 0, 2, 255, 1];
#[rustfmt::skip]
const REACHES: [[u64; 2]; 9] = [
    [40, 512], [128, 512], [61, 256], [0, 1], [200, 512], [512, 1_000], [65_536, 65_536], [150, 256], [65_536, 1],
];
const NODE_SIZES: [u64; 6] = [1, 2, 64, 3, 8, 65_535];

/// The zooms of the small cases: each number of points is listed with all of these.
const ZOOMS: [[u64; 2]; 5] = [[0, 1], [0, 3], [2, 3], [0, 0], [4, 9]];
const SMALL: usize = 12;

/// Larger and deeper cases: number of points, min_zoom and max_zoom.
#[rustfmt::skip]
const OTHERS: [(usize, [u64; 2]); 12] = [
    (24, [0, 0]), (30, [1, 2]), (36, [0, 1]), (60, [2, 2]), (90, [11, 11]), (2, [0, 30]), (3, [0, 16]), (3, [16, 30]),
    (4, [0, 9]), (5, [0, 16]), (5, [5, 24]), (6, [0, 30]),
];

/// The greatest reach: it leaves few entries in the tables after the finest.
const EVERYTHING: [u64; 2] = [65_536, 1];

/// As many points as there is room for, and one more: number of points, min_zoom and max_zoom.
#[rustfmt::skip]
const ROOMS: [(usize, [u64; 2]); 8] = [
    (36, [0, 30]), (37, [0, 30]), (72, [3, 17]), (73, [3, 17]), (144, [0, 6]), (145, [0, 6]), (576, [4, 4]),
    (577, [4, 4]),
];

/// How often each damage is done.
const DAMAGED: usize = 4;

/// Every stored text, each once.
pub fn stored() -> Vec<Vec<u8>> {
    let mut source = Splitmix(SEED);
    let mut all = Vec::new();
    all.extend(bounds());
    all.extend(listed(&mut source));
    all.extend([1, 64].map(|node_size| rounded_edge(node_size).text()));
    all.extend(faults());
    all.extend(damaged(&mut source));
    let mut known = HashSet::new();
    all.retain(|text| known.insert(text.clone()));
    all
}

/// The bounds from both sides; of the many points those that make no tables.
fn bounds() -> impl Iterator<Item = Vec<u8>> {
    let short = |draft: &Draft| draft.points.len() <= MOST_POINTS || draft.count > 1_151;
    at_bounds().into_iter().filter(short).map(|draft| draft.text())
}

/// Tables of every shape.
fn listed(source: &mut Splitmix) -> Vec<Vec<u8>> {
    let small = (1..=SMALL).flat_map(|count| ZOOMS.map(|zooms| (count, zooms)));
    let turns = small.chain(OTHERS).enumerate().map(|(number, case)| {
        let reach = REACHES[number % REACHES.len()];
        let min_points = MIN_POINTS[number % MIN_POINTS.len()];
        (case, reach, min_points, NODE_SIZES[number / 2 % NODE_SIZES.len()])
    });
    let rooms = ROOMS.map(|case| (case, EVERYTHING, 2, 64));
    let draft = |((count, zooms), reach, min_points, node_size)| {
        let ([min_zoom, max_zoom], [radius, extent]): ([u64; 2], [u64; 2]) = (zooms, reach);
        let options = [min_zoom, max_zoom, min_points, radius, extent, node_size];
        Draft::new(options, spread(count, source)).text()
    };
    turns.chain(rooms).map(draft).collect()
}

/// Faults of the options, of the points and of the form, each beside each other.
fn faults() -> Vec<Vec<u8>> {
    let mut all = Vec::new();
    for options in [[0, 30, 2, 64, 512, 64], [0, 31, 2, 64, 512, 64], [0, 30, 2, 64, 0, 64]] {
        for points in faulty_points() {
            let text = Draft::new(options, points).text();
            let twice = [&text[..], b"x=1\ny=1\nwh=1\n"].concat();
            let without_end = text[..text.len() - 1].to_vec();
            let return_first = [b"\r", &text[..]].concat();
            all.extend([text, twice, without_end, return_first]);
        }
    }
    all
}

/// Points that are fine, none, one outside as the first and as the last, too many, and both of these.
fn faulty_points() -> [Vec<[u64; 3]>; 6] {
    let outside = [1, 65_537, 7];
    let many: Vec<[u64; 3]> = (0..37).map(|i| [1_000 * i, 30_000, i]).collect();
    let mut both = many.clone();
    both[36] = outside;
    let near = vec![[7, 9, 9_999_999], [8, 9, 0], [65_536, 0, 1]];
    let [one, two] = [[1, 1, 0], [0, 65_536, 5]];
    [near, Vec::new(), vec![outside, one], vec![one, two, outside], many, both]
}

/// Each damage to a few short texts.
fn damaged(source: &mut Splitmix) -> Vec<Vec<u8>> {
    let none = Draft::new([0, 3, 2, 40, 512, 64], Vec::new());
    let two = Draft::new([10, 12, 0, 65_536, 9, 1], vec![[0, 65_536, 0], [65_536, 0, 9_999_999]]);
    let outside = Draft::new([0, 1, 5, 0, 1, 2], vec![[100_000, 1, 1], [1, 1, 12]]);
    let texts = [example(), none, two, outside].map(|draft| draft.text());
    let kinds = DAMAGES.iter().flat_map(|(_, damage)| [*damage; DAMAGED]);
    let turns = kinds.enumerate().map(|(turn, damage): (usize, Damage)| {
        // The texts move on against the kinds.
        damage(&texts[(turn + turn / DAMAGED) % texts.len()], source)
    });
    turns.filter(|text| text.len() <= MOST_BYTES).collect()
}

#[cfg(test)]
mod tests {
    use super::*;
    use crate::answer_to;

    /// Enough cases, of every answer, and not too many bytes.
    #[test]
    fn stored_cases() {
        let texts = stored();
        assert!(texts.len() >= 240, "{} cases", texts.len());
        let answers: Vec<_> = texts.iter().map(|text| answer_to(text)).collect();
        for (number, least) in [(0, 90), (1, 40), (2, 4), (3, 20), (4, 6), (12, 200)] {
            let count = answers.iter().filter(|answer| answer.number == number).count();
            assert!(count >= least, "{count} answered {number}");
        }
        let sizes =
            texts.iter().zip(&answers).map(|(text, answer)| text.len() + answer.printed.len());
        let bytes: usize = sizes.sum();
        assert!(bytes < 500_000, "{bytes} bytes");
    }
}
