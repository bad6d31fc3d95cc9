//! Test vectors for range.rs, made by calling the untouched Rust: one case a line, ten fields, a space between them,
//! LF at the end.
//!
//!     min_x min_y max_x max_y offset scale v normalized denormalized longitude
//!
//! A field is the 16 lowercase hex digits of the number's bits, every NaN `7ff8000000000000`. Offset and scale are
//! `----------------` where they are derived. `longitude` is the x that the Rust stores for a point at longitude v:
//! its conversion is private, so one point is loaded and the finest table read. There are 4,000 lines, a systematic
//! part and then random ones from seed 1; `--count N` gives N random ones instead. No case has zeros of both signs
//! as its two minima or maxima: of these the Rust may take either.

use crate::plain::{Options, Plane, Range, WORKED};
use beside::judge::{Judge, Untouched};
use points::odd::{ABOVE_1, BELOW_1, INF, MAX, NAN, NORMAL, TINY};
use splitmix::Splitmix;
use std::io::{self, Write};

/// How many lines there are by default: the systematic ones, then random ones up to this.
const DEFAULT_LINES: usize = 4000;
const DEFAULT_SEED: u64 = 1;
const LARGEST_SUBNORMAL: f64 = f64::from_bits(0x000f_ffff_ffff_ffff);
const LARGE: f64 = f64::from_bits(0x7fe0_0000_0000_0000);

/// What is normalised in the systematic part.
#[rustfmt::skip]
const VALUES: [f64; 38] = [
    0.0, -0.0, TINY, -TINY, LARGEST_SUBNORMAL, NORMAL, -NORMAL, 1e-300, 0.1, -0.1, 0.25, 0.5, -0.5,
    BELOW_1, 1.0, -1.0, ABOVE_1, 2.0, 3.0, 90.0, -90.0, 179.99999999999997, 180.0, -180.0, 360.0,
    -360.0, 361.0, 65_536.0, 1e6, 4_503_599_627_370_496.0, 9_007_199_254_740_992.0, 1e300, LARGE,
    MAX, -MAX, INF, -INF, NAN,
];

/// Offsets that are given.
const OFFSETS: [f64; 11] = [0.0, -0.0, TINY, -NORMAL, 0.5, BELOW_1, -180.0, 1e300, -MAX, INF, NAN];

/// Scales that are given.
const SCALES: [f64; 13] =
    [1.0, ABOVE_1, 3.0, 360.0, TINY, LARGEST_SUBNORMAL, LARGE, MAX, 0.0, -0.0, -1.0, INF, NAN];

/// Values for the crossing of given offsets and scales.
const CROSSED: [f64; 8] = [0.0, -0.0, TINY, 0.5, 1.0, -180.0, MAX, NAN];

/// Pairs of minima or maxima; none is a pair of zeros of both signs, where the Rust gives either.
#[rustfmt::skip]
const PAIRS: [[f64; 2]; 13] = [
    [0.0, 1.0], [1.0, 0.0], [-180.0, -90.0], [180.0, 90.0], [0.0, 0.0], [-0.0, -0.0],
    [TINY, NORMAL], [MAX, -MAX], [INF, 1.0], [1.0, -INF], [NAN, 1.0], [1.0, NAN], [NAN, NAN],
];

/// What is asked for on the command line.
pub struct Wanted {
    count: Option<usize>,
    seed: u64,
}

impl Wanted {
    /// From the words after the subcommand.
    pub fn parse(words: &[&str]) -> Option<Wanted> {
        let mut wanted = Wanted { count: None, seed: DEFAULT_SEED };
        for pair in words.chunks(2) {
            match pair {
                ["--count", number] => wanted.count = Some(number.parse().ok()?),
                ["--seed", number] => wanted.seed = number.parse().ok()?,
                _ => return None,
            }
        }
        Some(wanted)
    }
}

/// One case: a range and the number put through it.
type Case = (Range, f64);

/// Writes the cases.
pub fn write(wanted: &Wanted, out: &mut impl Write) -> io::Result<()> {
    let systematic = match wanted.count {
        Some(_) => Vec::new(),
        None => systematic(),
    };
    let random = wanted.count.unwrap_or(DEFAULT_LINES.saturating_sub(systematic.len()));
    for (range, v) in &systematic {
        out.write_all(line(range, *v).as_bytes())?;
    }
    let mut source = Splitmix(wanted.seed);
    for number in 0..random {
        let (range, v) = random_case(&mut source, number);
        out.write_all(line(&range, v).as_bytes())?;
    }
    out.flush()
}

/// The ten fields of a case and a line feed.
fn line(range: &Range, v: f64) -> String {
    let fields = [
        Some(range.min_x),
        Some(range.min_y),
        Some(range.max_x),
        Some(range.max_y),
        range.offset,
        range.scale,
        Some(v),
        Some(Untouched::normalize(range, v)),
        Some(Untouched::denormalize(range, v)),
        Some(longitude(v)),
    ];
    fields.map(field).join(" ") + "\n"
}

/// 16 digits of the bits; dashes for what is derived; one form for every NaN.
fn field(number: Option<f64>) -> String {
    match number {
        None => "-".repeat(16),
        Some(number) if number.is_nan() => "7ff8000000000000".to_string(),
        Some(number) => format!("{:016x}", number.to_bits()),
    }
}

/// The x that the Rust stores for a lamp at this longitude; its conversion is not public.
fn longitude(v: f64) -> f64 {
    let options = Options { max_zoom: 0, plane: Plane::Globe, ..WORKED };
    let build = Untouched::load(&options, &[[v, 0.0]]).expect("one lamp is loaded");
    build.table(1).expect("the finest table")[0].x
}

fn range(minima: [f64; 2], maxima: [f64; 2], offset: Option<f64>, scale: Option<f64>) -> Range {
    Range { min_x: minima[0], min_y: minima[1], max_x: maxima[0], max_y: maxima[1], offset, scale }
}

/// The special numbers, crossed.
fn systematic() -> Vec<Case> {
    let mut cases = Vec::new();
    for (minima, maxima) in
        [([0.0; 2], [1.0; 2]), ([-180.0, -90.0], [180.0, 90.0]), ([0.0; 2], [1e6; 2])]
    {
        cases.extend(VALUES.map(|v| (range(minima, maxima, None, None), v)));
    }
    for offset in OFFSETS {
        for scale in SCALES {
            let given = range([0.0; 2], [1.0; 2], Some(offset), Some(scale));
            cases.extend(CROSSED.map(|v| (given, v)));
        }
        cases.extend(PAIRS.map(|maxima| (range([0.0; 2], maxima, Some(offset), None), 0.5)));
    }
    for minima in PAIRS {
        for maxima in PAIRS {
            cases.extend([0.5, -90.0, TINY].map(|v| (range(minima, maxima, None, None), v)));
        }
        cases.extend(SCALES.map(|scale| (range(minima, [1.0; 2], None, Some(scale)), 0.5)));
    }
    cases
}

/// A random case of the kind that is due.
fn random_case(source: &mut Splitmix, number: usize) -> Case {
    match number % 6 {
        0 => ordinary(source),
        1 => of_kind(source, |source| canonical(f64::from_bits(source.bits()))),
        2 => of_kind(source, |source| exponent(source, 2026, 21)),
        3 => of_kind(source, |source| exponent(source, 0, 60)),
        4 => of_kind(source, |source| exponent(source, 963, 120)),
        _ => close(source),
    }
}

/// One form for every NaN before it reaches the Rust.
fn canonical(number: f64) -> f64 {
    if number.is_nan() {
        NAN
    } else {
        number
    }
}

/// Any sign and significand, and one of `span` exponents from `first` on (in the format's own count).
fn exponent(source: &mut Splitmix, first: u64, span: u64) -> f64 {
    let exponent = first + source.below(span);
    let rest = source.bits() & 0x800f_ffff_ffff_ffff;
    f64::from_bits(rest | exponent << 52)
}

/// A case whose seven numbers are all of one kind, offset and scale given or derived by chance.
fn of_kind(source: &mut Splitmix, number: fn(&mut Splitmix) -> f64) -> Case {
    let minima = pair(number(source), number(source));
    let maxima = pair(number(source), number(source));
    let (offset, scale) = (number(source), number(source));
    let case = range(minima, maxima, given(source, offset), given(source, scale));
    (case, number(source))
}

/// Given or derived, by chance.
fn given(source: &mut Splitmix, number: f64) -> Option<f64> {
    (source.below(2) == 0).then_some(number)
}

/// Two minima or maxima, never zeros of both signs: there the Rust gives either.
fn pair(a: f64, b: f64) -> [f64; 2] {
    if a == b {
        [a, a]
    } else {
        [a, b]
    }
}

/// A range as users have it, and a number inside it or a little outside.
fn ordinary(source: &mut Splitmix) -> Case {
    const KNOWN: [([f64; 2], [f64; 2]); 5] = [
        ([-180.0, -90.0], [180.0, 90.0]),
        ([0.0, 0.0], [1.0, 1.0]),
        ([0.0, 0.0], [1e6, 1e6]),
        ([-5000.0, -2500.0], [5000.0, 7500.0]),
        ([0.0, 0.0], [4096.0, 2160.0]),
    ];
    let (minima, maxima) = match source.below(2) {
        0 => source.pick(&KNOWN),
        _ => {
            let [x, y] = [0, 1].map(|_| 2e6 * source.unit() - 1e6);
            ([x, y], [x, y].map(|least| least + 1e6 * source.unit()))
        }
    };
    let lowest = minima[0].min(minima[1]);
    let width = maxima[0].max(maxima[1]) - lowest;
    let case = range(minima, maxima, given(source, lowest), given(source, width));
    (case, lowest + width * (1.25 * source.unit() - 0.125))
}

/// A number a few steps from the offset, and a scale of about their distance.
fn close(source: &mut Splitmix) -> Case {
    let offset = 2e3 * source.unit() - 1e3;
    let steps = source.below(64);
    let v = f64::from_bits(offset.to_bits() + steps);
    let scale = (v - offset).abs() + source.unit() * 1e-9;
    let minima = pair(offset, offset + source.unit());
    let maxima = pair(offset + scale, offset + scale * source.unit());
    (range(minima, maxima, given(source, offset), given(source, scale)), v)
}
