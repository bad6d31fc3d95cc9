//! The tables: a line for each measurement, with the medians and their ratios, or with the peaks.

use crate::{memory::Peak, rounds::median};

/// A table of times: the names of the sides that stand beside the port. What is printed can stand in a page as it is.
pub struct Times(pub &'static [&'static str]);

impl Times {
    /// The head, with the name of what is counted.
    pub fn head(&self, counted: &str) {
        let other = |other: &&str| format!(" {other} | port / {other} |");
        let others: String = self.0.iter().map(other).collect();
        println!("| | {counted} | port |{others}");
        println!("|---|---|---|{}", "---|---|".repeat(self.0.len()));
    }

    /// One line: what was measured, what was counted, how many pieces of work are in one measurement, and the
    /// nanoseconds of the port and of the others, round by round. The last ones may not have been measured.
    pub fn line(&self, what: &str, counted: &str, pieces: usize, times: &[Vec<u64>]) {
        let time = |side: &[u64]| shown(median(side) as f64 / pieces as f64);
        let port = &times[0];
        let beside = |at: usize| match times.get(at) {
            Some(other) => format!(" {} | {} |", time(other), ratio(port, other)),
            None => "  |  |".to_string(),
        };
        let others: String = (1..=self.0.len()).map(beside).collect();
        println!("| {what} | {counted} | {} |{others}", time(port));
    }
}

/// The head of a table of times of a box within an effort, and of the box without one.
pub fn effort_head() {
    println!("| | answers | within an effort | the box | effort / box |");
    println!("|---|---|---|---|---|");
}

/// One line of it: the nanoseconds of both, round by round.
pub fn effort_line(what: &str, counted: &str, pieces: usize, times: &[Vec<u64>]) {
    let time = |side: &[u64]| shown(median(side) as f64 / pieces as f64);
    let (effort, plain) = (&times[0], &times[1]);
    println!(
        "| {what} | {counted} | {} | {} | {} |",
        time(effort),
        time(plain),
        ratio(effort, plain)
    );
}

/// The head of a table of single calls.
pub fn calls_head() {
    println!("| | calls | median | slowest | the box, median |");
    println!("|---|---|---|---|---|");
}

/// One line of it: the nanoseconds of each call, and of calls of the box without an effort.
pub fn calls_line(what: &str, calls: &[u64], plain: &[u64]) {
    let slowest = *calls.iter().max().expect("a call");
    let [median, slowest, plain] =
        [median(calls), slowest, median(plain)].map(|time| shown(time as f64));
    println!("| {what} | {} | {median} | {slowest} | {plain} |", calls.len());
}

/// The median of the rounds' own ratios, and from where to where the middle half of them lies.
fn ratio(port: &[u64], other: &[u64]) -> String {
    let one = |(port, other): (&u64, &u64)| *port as f64 / *other as f64;
    let mut single: Vec<f64> = port.iter().zip(other).map(one).collect();
    single.sort_by(f64::total_cmp);
    let (middle, quarter) = (single.len() / 2, single.len() / 4);
    let (low, high) = (single[quarter], single[single.len() - 1 - quarter]);
    let [middle, low, high] = [single[middle], low, high].map(digits);
    format!("{middle} ({low} to {high})")
}

/// A ratio: with two digits behind the point, or with more where these would say too little.
fn digits(ratio: f64) -> String {
    match ratio {
        0.095.. => format!("{ratio:.2}"),
        0.0095.. => format!("{ratio:.3}"),
        _ => format!("{ratio:.4}"),
    }
}

/// A time with its unit.
fn shown(nanoseconds: f64) -> String {
    if nanoseconds >= 1e8 {
        format!("{:.0} ms", nanoseconds / 1e6)
    } else if nanoseconds >= 1e6 {
        format!("{:.1} ms", nanoseconds / 1e6)
    } else if nanoseconds >= 100.0 {
        format!("{:.2} µs", nanoseconds / 1e3)
    } else {
        format!("{nanoseconds:.1} ns")
    }
}

/// The head of a table that follows a time along sizes.
pub fn growth_head(what: &str, counts: &[usize]) {
    let counts: String = counts.iter().map(|count| format!(" {count} |")).collect();
    println!("| {what} |{counts}");
    println!("|---|{}", "---|".repeat(counts.matches('|').count()));
}

/// One line of it: a time for each size.
pub fn growth_line(what: &str, times: impl Iterator<Item = f64>) {
    let times: String = times.map(|time| format!(" {} |", shown(time))).collect();
    println!("| {what} |{times}");
}

/// The head of the table of memory: of the whole process, and what the work added to what was there before.
pub fn memory_head() {
    println!(
        "| peak memory | port | untouched | port / untouched | added, port | added, untouched | \
         port / untouched |"
    );
    println!("|---|---|---|---|---|---|---|");
}

/// One line of it.
pub fn memory_line(what: &str, port: Peak, untouched: Peak) {
    let added = |peak: Peak| peak.most - peak.before;
    let shown = |kilobytes: u64| format!("{:.1} MB", kilobytes as f64 * 1_024.0 / 1e6);
    let three = |port: u64, untouched: u64| {
        let ratio = port as f64 / untouched as f64;
        format!("{} | {} | {ratio:.2}", shown(port), shown(untouched))
    };
    let whole = three(port.most, untouched.most);
    println!("| {what} | {whole} | {} |", three(added(port), added(untouched)));
}
