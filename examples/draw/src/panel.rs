//! One panel: the entries of a table, and lines from the entries of the finer table that they own.

use crate::tables::{Entry, Table};
use std::fmt::Write;

/// The space between the outermost entries and the frame.
const INSET: f64 = 26.0;

/// The flattest and the tallest frame, as height to width.
const FLATTEST: f64 = 0.35;
const TALLEST: f64 = 1.2;

/// The radius of a circle is this times the root of its count, or less where the largest would be too large.
const GROWTH: f64 = 5.0;
const LARGEST: f64 = 40.0;

/// A circle holds its count from this radius on; each further digit needs more. From that one on it holds its energy too.
const HOLDS: f64 = 6.5;
const EACH_DIGIT: f64 = 2.3;
const HOLDS_BOTH: f64 = 13.0;

/// What part of the map a panel shows, and how large.
pub struct Frame {
    left: f64,
    top: f64,
    scale: f64,
    growth: f64,
    width: f64,
    pub height: f64,
}

impl Frame {
    /// A frame of this width for all that these tables hold.
    pub fn around(tables: &[Table], width: f64) -> Frame {
        let entries = || tables.iter().flat_map(|table| &table.entries);
        let least = |axis: fn(&Entry) -> f64| entries().map(axis).fold(f64::INFINITY, f64::min);
        let most = |axis: fn(&Entry) -> f64| entries().map(axis).fold(0.0, f64::max);
        let [left, top] = [least(|entry| entry.x), least(|entry| entry.y)];
        let [wide, high] = [most(|entry| entry.x) - left, most(|entry| entry.y) - top];
        let inner = width - 2.0 * INSET;
        let height = (inner * high / wide.max(1e-9) + 2.0 * INSET)
            .clamp(FLATTEST * width, TALLEST * width)
            .round();
        let scale = (inner / wide.max(1e-9)).min((height - 2.0 * INSET) / high.max(1e-9));
        let largest = entries().map(|entry| entry.num).max().unwrap_or(1);
        let growth = GROWTH.min(LARGEST / f64::from(largest).sqrt());
        // The map lies in the middle.
        let left = left - (width / scale - wide) / 2.0;
        let top = top - (height / scale - high) / 2.0;
        Frame { left, top, scale, growth, width, height }
    }

    /// Where an entry is drawn.
    fn at(&self, entry: &Entry) -> [f64; 2] {
        [(entry.x - self.left) * self.scale, (entry.y - self.top) * self.scale]
    }

    /// How large a cluster is drawn.
    fn radius(&self, num: u32) -> f64 {
        self.growth * f64::from(num).sqrt()
    }
}

/// A table in its frame, and the finer one before it, if there is one.
pub struct Panel<'a> {
    pub table: &'a Table,
    pub finer: Option<&'a Table>,
    pub frame: &'a Frame,
}

impl Panel<'_> {
    /// The panel: frame, lines, clusters, lamps, counts.
    pub fn drawn(&self) -> Result<String, String> {
        let Frame { width, height, .. } = self.frame;
        let mut svg = format!(
            "<rect width=\"{width:.0}\" height=\"{height:.0}\" rx=\"4\" fill=\"#fff\" \
             stroke=\"#d8d2c4\"/>\n"
        );
        svg += &self.owners()?;
        let (mut clusters, lamps): (Vec<&Entry>, Vec<&Entry>) =
            self.table.entries.iter().partition(|entry| entry.is_cluster());
        // The large ones first, so that no small one is hidden.
        clusters.sort_by_key(|entry| u32::MAX - entry.num);
        svg += &self.circles("cluster", &clusters, |entry| self.frame.radius(entry.num));
        svg += &self.circles("lamp", &lamps, |_| 2.0);
        clusters.iter().for_each(|entry| svg += &self.count(entry));
        Ok(svg)
    }

    /// A line from each entry of the finer table that a cluster absorbed, with a point where it lay.
    fn owners(&self) -> Result<String, String> {
        let mut lines = String::new();
        let mut absorbed = Vec::new();
        for entry in self.finer.iter().flat_map(|finer| &finer.entries) {
            let owner = self.table.owner(entry)?;
            if owner.id != entry.id {
                let [[x, y], [to_x, to_y]] = [entry, owner].map(|entry| self.frame.at(entry));
                write!(lines, "M{x:.1} {y:.1}L{to_x:.1} {to_y:.1}").expect("a string takes any");
                absorbed.push(entry);
            }
        }
        if absorbed.is_empty() {
            return Ok(lines);
        }
        let points = self.circles("finer", &absorbed, |_| 1.3);
        Ok(format!("<path class=\"owner\" d=\"{lines}\"/>\n{points}"))
    }

    /// A circle for each of these entries.
    fn circles(&self, class: &str, entries: &[&Entry], radius: impl Fn(&Entry) -> f64) -> String {
        let mut svg = format!("<g class=\"{class}\">\n");
        for entry in entries {
            let ([x, y], r) = (self.frame.at(entry), radius(entry));
            writeln!(svg, "<circle cx=\"{x:.1}\" cy=\"{y:.1}\" r=\"{r:.1}\"/>")
                .expect("a string takes any line");
        }
        svg + "</g>\n"
    }

    /// The count of a cluster: in its circle where that is large enough, otherwise beside it; and its energy below, where
    /// there is room for both.
    fn count(&self, entry: &Entry) -> String {
        let ([x, y], r) = (self.frame.at(entry), self.frame.radius(entry.num));
        let num = entry.num.to_string();
        if r >= HOLDS_BOTH {
            let energy = kilowatt_hours(entry.energy);
            let [upper, lower] = [y - 0.4, y + 8.6];
            return format!(
                "<text class=\"count\" x=\"{x:.1}\" y=\"{upper:.1}\">{num}</text>\n\
                 <text class=\"energy\" x=\"{x:.1}\" y=\"{lower:.1}\">{energy}</text>\n"
            );
        }
        if r >= HOLDS + EACH_DIGIT * (num.len() - 1) as f64 {
            let y = y + 3.6;
            return format!("<text class=\"count\" x=\"{x:.1}\" y=\"{y:.1}\">{num}</text>\n");
        }
        let [x, y] = [x + 0.75 * r + 1.5, y - 0.75 * r];
        format!("<text class=\"beside\" x=\"{x:.1}\" y=\"{y:.1}\">{num}</text>\n")
    }
}

/// Watt-hours as kilowatt-hours with one digit behind the point, rounded.
pub fn kilowatt_hours(energy: u64) -> String {
    let tenths = (energy + 50) / 100;
    format!("{}.{}", tenths / 10, tenths % 10)
}
