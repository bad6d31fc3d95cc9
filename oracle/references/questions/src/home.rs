//! The tile that holds a coordinate, by whole numbers on the coordinate's bits.

/// Along one axis, the tile of zoom z that holds c: floor of c * 2^z; 1.0 is in the last tile (#104). c is
/// within [0,1] and z at most 31.
pub fn home(z: u8, c: f64) -> u32 {
    // c is whole / 2^places exactly; a zero may have a sign.
    let bits = c.to_bits() & !(1 << 63);
    let (fraction, exponent) = (bits & ((1 << 52) - 1), bits >> 52);
    let (whole, places) = match exponent {
        0 => (fraction, 1_074),
        _ => (fraction | 1 << 52, 1_075 - exponent),
    };
    let floor = whole.checked_shr(places as u32 - u32::from(z)).unwrap_or(0);
    floor.min((1 << z) - 1) as u32
}
