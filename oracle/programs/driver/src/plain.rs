//! The plain values that pass between the driver and a build of the Rust: options, entries, items.

pub use beside::{Entry, Item};
pub use options::{Options, Plane, Range, UNIT, WORKED};
pub use points::odd::{ABOVE_QUARTER, BELOW_QUARTER};

/// The four lamps of SCOPE's worked build, in 65,536ths.
pub const LAMPS: [[u32; 2]; 4] = [[16384, 32768], [20480, 32768], [26624, 32768], [26624, 32768]];

/// Their energies, by #108.
pub const ENERGIES: [u64; 4] = [10, 20, 30, 40];

/// Options by which a lamp at x = 1 just reaches one below a quarter at zoom 0, in an index that is split; the
/// three lamps of SCOPE's corner.
pub const REACHING: Options = Options { max_zoom: 0, radius: 384.0, node_size: 1, ..WORKED };
pub const REACHED: [[f64; 2]; 3] = [[1.0, 0.5], [BELOW_QUARTER, 0.5], [BELOW_QUARTER, 0.5]];

/// Points in 65,536ths as numbers.
pub fn points(parts: &[[u32; 2]]) -> Vec<[f64; 2]> {
    parts.iter().map(|part| part.map(|n| f64::from(n) / 65_536.0)).collect()
}

/// Numbers with commas between them, or `nothing`.
pub fn listed<T: ToString>(numbers: &[T]) -> String {
    let texts: Vec<String> = numbers.iter().map(T::to_string).collect();
    match texts.is_empty() {
        true => "nothing".to_string(),
        false => texts.join(","),
    }
}

/// Points as a column of x and one of y.
pub fn columns(points: &[[f64; 2]]) -> [Vec<f64>; 2] {
    [0, 1].map(|axis| points.iter().map(|point| point[axis]).collect())
}

/// The ids of items, listed.
pub fn ids(items: &[Item]) -> String {
    listed(&items.iter().map(|item| item.id).collect::<Vec<_>>())
}

/// The places of items, listed.
pub fn spots(items: &[Item]) -> String {
    let texts: Vec<String> = items.iter().map(|item| format!("({},{})", item.x, item.y)).collect();
    listed(&texts)
}
