//! Texts at every bound and one past it, one bound at a time.

use super::{example, Draft};

/// The values that each option is given: its bounds by the form and by the build, and both sides of them.
const VALUES: [&[u64]; 6] = [
    &[0, 1, 2, 3, 30, 31, 99, 100, 254, 255, 256, 999, 1_000, 9_999_999, 10_000_000],
    &[0, 1, 2, 29, 30, 31, 32, 99, 100, 254, 255, 256, 999, 1_000, 9_999_999, 10_000_000],
    &[0, 1, 2, 3, 4, 5, 99, 100, 254, 255, 256, 999, 1_000, 9_999_999, 10_000_000],
    &[0, 1, 511, 65_535, 65_536, 65_537, 999_999, 1_000_000, 9_999_999, 10_000_000, 99_999_999],
    &[0, 1, 2, 511, 65_535, 65_536, 65_537, 999_999, 1_000_000, 9_999_999, 10_000_000],
    &[0, 1, 2, 3, 65_534, 65_535, 65_536, 65_537, 999_999, 9_999_999, 10_000_000, 4_294_967_297],
];

/// Zooms that are crossed.
const ZOOMS: [u64; 10] = [0, 1, 15, 16, 29, 30, 31, 254, 255, 256];

/// Numbers of points, around what two tables have room for and around what a text may state.
const COUNTS: [usize; 10] = [0, 1, 2, 3, 575, 576, 577, 1_151, 1_152, 1_153];

/// Coordinates around both ends of the unit and around seven digits.
const COORDINATES: [u64; 9] =
    [0, 1, 65_535, 65_536, 65_537, 999_999, 1_000_000, 9_999_999, 10_000_000];

/// Energies around seven digits, around what a build takes, and around what 64 bits hold.
const ENERGIES: [u64; 12] = [
    0,
    1,
    9,
    10,
    999_999,
    1_000_000,
    9_999_999,
    10_000_000,
    1_099_511_627_776,
    1_099_511_627_777,
    18_446_744_073_709_551_615,
    4_294_967_296,
];

/// SCOPE's example with one number at a bound or past it; both zooms; numbers of points; each coordinate and each energy.
pub fn at_bounds() -> Vec<Draft> {
    let mut all = vec![example()];
    for (key, values) in VALUES.iter().enumerate() {
        all.extend(values.iter().map(|value| with_option(key, *value)));
    }
    for min_zoom in ZOOMS {
        for max_zoom in ZOOMS {
            let mut draft = with_option(0, min_zoom);
            draft.options[1] = max_zoom;
            all.push(draft);
        }
    }
    all.extend(COUNTS.map(of_count));
    all.extend(COUNTS.map(|count| Draft { count: count as u64, ..example() }));
    for value in COORDINATES {
        for (point, axis) in [(0, 0), (0, 1), (1, 0), (2, 1), (3, 0), (3, 1)] {
            let mut draft = example();
            draft.points[point][axis] = value;
            all.push(draft);
        }
    }
    for value in ENERGIES {
        for points in [0..1, 2..3, 3..4, 0..4] {
            let mut draft = example();
            draft.points[points].iter_mut().for_each(|point| point[2] = value);
            all.push(draft);
        }
    }
    all
}

/// For every number of tables, as many points as 1,152 entries have room for, and one more.
pub fn rooms() -> impl Iterator<Item = Draft> {
    (2..=32).flat_map(|tables: u64| {
        let most = 1_152 / tables as usize;
        [(0, most), (0, most + 1), (32 - tables, most), (32 - tables, most + 1)].map(
            move |(min_zoom, count)| {
                let mut draft = of_count(count);
                draft.options[0] = min_zoom;
                draft.options[1] = min_zoom + tables - 2;
                draft
            },
        )
    })
}

/// SCOPE's example with an option changed.
fn with_option(key: usize, value: u64) -> Draft {
    let mut draft = example();
    draft.options[key] = value;
    draft
}

/// So many points in even steps, with one table beside the finest.
fn of_count(count: usize) -> Draft {
    let point = |i: u64| [i * 40_503 % 65_537, i * 25_033 % 65_537, i * 7_654_321 % 10_000_000];
    Draft::new([3, 3, 2, 64, 512, 64], (0..count as u64).map(point).collect())
}
