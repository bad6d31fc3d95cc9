//! The inputs on which SCOPE and the Rust differ: each is run against the untouched Rust and the patched one, and must
//! give what its row in docs/DIFFERENCES.md says. Where a patch of ours has the Rust follow SCOPE, the untouched Rust must
//! give what the row says of the Rust, and the others what it says of SCOPE. Of the tiles of a site plan, the Rust's search
//! of a tile's own range must give what the row says of SCOPE.

mod boxes;
mod child;
mod ids;
mod lent;
mod limits;
mod options;
mod page;
mod plans;
mod points;
mod ranges;
mod rings;
mod tiles;
mod window;

use crate::{
    attempt::{attempt, overflow_checks},
    plain::{listed, points as in_parts, Options, LAMPS, WORKED},
    report::Report,
};
use beside::judge::{Judge, Patched, Ringed, Untouched};
use page::{Held, Row};
use std::process::ExitCode;

/// One input and the question to the Rust. What it is and what comes of it stands on the page.
struct Case {
    /// Its name on the page.
    code: &'static str,
    /// The question.
    ask: fn() -> String,
    /// Whether it runs in a process of its own, with a limit on time and memory.
    apart: bool,
}

fn case(code: &'static str, ask: fn() -> String) -> Case {
    Case { code, ask, apart: false }
}

/// A case in a process of its own.
fn apart(code: &'static str, ask: fn() -> String) -> Case {
    Case { code, ask, apart: true }
}

/// The cases that are put to one build of the Rust, in the order of the page.
fn cases<J: Judge>() -> Vec<Case> {
    let mut all = options::cases::<J>();
    all.extend(points::cases::<J>());
    all.extend(ids::cases::<J>());
    all.extend(limits::cases::<J>());
    all.extend(tiles::cases::<J>());
    all.extend(plans::cases::<J>());
    all.extend(boxes::cases::<J>());
    all.extend(lent::cases::<J>());
    all.extend(ranges::cases::<J>());
    all
}

/// Runs every case beside its row of the page.
pub fn run(page: &str) -> ExitCode {
    let rows = page::rows(page);
    let with_checks = overflow_checks();
    println!("overflow checks: {}", if with_checks { "on" } else { "off" });
    let profile = if with_checks { ", checked" } else { "" };
    let mut report = Report::default();
    compare_codes(&rows, &mut report);
    let builds = [
        (Untouched::NAME, cases::<Untouched>(), Held::ToTheRust),
        (Patched::NAME, cases::<Patched>(), Held::ToTheRust),
        (Untouched::NAME, plans::without_strips::<Untouched>(), Held::ToTheScope),
        (Patched::NAME, plans::without_strips::<Patched>(), Held::ToTheScope),
        ("one beside the other", window::cases(), Held::ToTheRust),
        (Untouched::NAME, rings::refused::<Untouched>(), Held::ToTheRust),
        (Untouched::NAME, rings::cases::<Untouched>(), Held::ToTheRust),
        (Ringed::NAME, rings::cases::<Ringed>(), Held::ToTheScope),
        (Patched::NAME, rings::cases::<Patched>(), Held::ToTheScope),
    ];
    for (build, cases, held) in builds {
        for case in cases {
            let row = rows.iter().find(|row| row.code == case.code).unwrap_or(&page::MISSING);
            let what = format!("{build}{profile}: {} {}", case.code, row.input);
            report.compare(&what, row.outcome(held, with_checks), &found(build, &case));
        }
    }
    report.finish("differences")
}

/// The page has a row for each case, and no other.
fn compare_codes(rows: &[Row], report: &mut Report) {
    let mut cases = cases::<Untouched>();
    cases.extend(rings::refused::<Untouched>());
    cases.extend(rings::cases::<Untouched>());
    cases.extend(window::cases());
    let known: Vec<&str> = cases.iter().map(|case| case.code).collect();
    let shown: Vec<&str> = rows.iter().map(|row| row.code).collect();
    report.compare("cases without a row", "nothing", &missing(&known, &shown));
    report.compare("rows without a case", "nothing", &missing(&shown, &known));
    report.compare("rows and cases", &known.len().to_string(), &shown.len().to_string());
}

/// The codes that are not among the others, listed.
fn missing(codes: &[&str], others: &[&str]) -> String {
    let missing: Vec<&&str> = codes.iter().filter(|code| !others.contains(code)).collect();
    listed(&missing)
}

/// What the case gives.
fn found(build: &str, case: &Case) -> String {
    match case.apart {
        true => child::run(case.code, build),
        false => attempt(case.ask),
    }
}

/// Runs one case of one build in this process and prints the outcome: the other side of `child::run`.
pub fn run_one(code: &str, build: &str) -> ExitCode {
    let all = match build {
        "untouched" => cases::<Untouched>(),
        "patched" => cases::<Patched>(),
        _ => Vec::new(),
    };
    match all.iter().find(|case| case.code == code) {
        Some(case) => {
            println!("{}", attempt(case.ask));
            ExitCode::SUCCESS
        }
        None => ExitCode::from(2),
    }
}

/// SCOPE's worked build with other options.
fn lamps<J: Judge>(options: Options) -> J {
    load(options, &in_parts(&LAMPS))
}

/// SCOPE's worked build.
fn example<J: Judge>() -> J {
    lamps(WORKED)
}

fn load<J: Judge>(options: Options, points: &[[f64; 2]]) -> J {
    J::load(&options, points).unwrap_or_else(|error| panic!("not loaded: {error}"))
}

/// An answer as text: what `show` makes of it, or the name of the Rust's error.
fn told<T>(answer: Result<Vec<T>, String>, show: fn(&[T]) -> String) -> String {
    answer.map_or_else(|error| error, |items| show(&items))
}

/// How many entries each table has, from the finest down: `4,2,1`.
fn entries<J: Judge>(build: &J) -> String {
    let tables = (0..=256).rev().filter_map(|zoom| build.table(zoom));
    listed(&tables.map(|table| table.len()).collect::<Vec<_>>())
}

/// The same where nothing else says that these are tables: `tables of 4,2,1`.
fn lengths<J: Judge>(build: &J) -> String {
    format!("tables of {}", entries(build))
}

/// Points spread over the unit square, with no two alike on an axis.
fn spread(count: u32) -> Vec<[f64; 2]> {
    let part = |i: u32, step: f64| (f64::from(i) * step).fract();
    (0..count).map(|i| [part(i, 0.6180339887498949), part(i, 0.7548776662466927)]).collect()
}
