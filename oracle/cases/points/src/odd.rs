//! Odd numbers, each named once: the ends of the format, the neighbours of bounds, and what no build leaves.

pub const NAN: f64 = f64::NAN;
pub const INF: f64 = f64::INFINITY;
pub const MAX: f64 = f64::MAX;

/// The least number above 0, and the least normal one.
pub const TINY: f64 = f64::from_bits(1);
pub const NORMAL: f64 = f64::MIN_POSITIVE;

/// The numbers beside 1.
pub const BELOW_1: f64 = f64::from_bits(0x3fef_ffff_ffff_ffff);
pub const ABOVE_1: f64 = f64::from_bits(0x3ff0_0000_0000_0001);

/// The numbers beside a quarter: SCOPE's, which the rounded edge of a ring at 1 with radius 0.75 cuts off, and the one
/// above, which that of a ring at -1 with radius 1.25 does.
pub const BELOW_QUARTER: f64 = 0.25 - 1.0 / (1_u64 << 55) as f64;
pub const ABOVE_QUARTER: f64 = 0.25 + 1.0 / (1_u64 << 54) as f64;

/// What is not finite.
pub const NOT_FINITE: [f64; 3] = [NAN, INF, -INF];

/// Numbers at the edges of [0,1] and of the format, and SCOPE's number beside a quarter.
pub const EDGES: [f64; 10] = [
    0.0,
    -0.0,
    TINY,
    NORMAL,
    BELOW_QUARTER,
    0.25,
    0.5,
    f64::from_bits(0x3fdf_ffff_ffff_ffff),
    BELOW_1,
    1.0,
];

/// Coordinates that a lent column may hold, most of which no build leaves there.
pub const WILD: [f64; 12] =
    [NAN, INF, -INF, MAX, -MAX, 1e200, -1e-200, -0.0, 1.0, ABOVE_1, 1.5, 0.25];
