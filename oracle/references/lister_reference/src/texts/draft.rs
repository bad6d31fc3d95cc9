//! A text in the making: values as they will be written, within SCOPE's bounds or not.

use std::fmt::Write;

/// The keys before the count.
pub const KEYS: [&str; 6] = ["min_zoom", "max_zoom", "min_points", "radius", "extent", "node_size"];

/// The values of a text: of each key, the count that it states, and the points that it has.
#[derive(Clone, Debug)]
pub struct Draft {
    pub options: [u64; KEYS.len()],
    pub count: u64,
    /// x, y and energy of each.
    pub points: Vec<[u64; 3]>,
}

impl Draft {
    /// The values of a text that states how many points it has.
    pub fn new(options: [u64; KEYS.len()], points: Vec<[u64; 3]>) -> Draft {
        Draft { options, count: points.len() as u64, points }
    }

    /// The text.
    pub fn text(&self) -> Vec<u8> {
        let mut text = String::new();
        let mut line = |key: &str, value: u64| {
            writeln!(text, "{key}={value}").expect("a string takes any line");
        };
        for (key, value) in KEYS.iter().zip(self.options) {
            line(key, value);
        }
        line("count", self.count);
        for [x, y, energy] in &self.points {
            line("x", *x);
            line("y", *y);
            line("wh", *energy);
        }
        text.into_bytes()
    }

    /// In words.
    pub fn name(&self) -> String {
        let Draft { options, count, points } = self;
        format!("options {options:?}, count {count}, {} points", points.len())
    }
}

/// SCOPE's example, with the energies.
pub fn example() -> Draft {
    let lamps =
        [[16_384, 32_768, 10], [20_480, 32_768, 20], [26_624, 32_768, 30], [26_624, 32_768, 40]];
    Draft::new([0, 1, 2, 64, 512, 64], lamps.to_vec())
}
