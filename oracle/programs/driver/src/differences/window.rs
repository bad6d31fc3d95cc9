//! The window block of `select`: it runs from 602 slots on, and SCOPE takes it out.

use super::{case, load, spread, Case};
use crate::plain::{Entry, Options, WORKED};
use beside::judge::{Judge, Patched, Untouched};

/// These compare the two builds with each other.
pub fn cases() -> Vec<Case> {
    vec![
        case("W1", || slots(601)),
        case("W2", || slots(602)),
        case("W3", || tables(601)),
        case("W4", || tables(602)),
    ]
}

fn slots(count: u32) -> String {
    let points = spread(count);
    alike(Untouched::slots(64, &points) == Patched::slots(64, &points))
}

/// A build in which all lamps become one cluster, its sums taken in answer order.
fn tables(count: u32) -> String {
    let options = Options { max_zoom: 0, radius: 1024.0, ..WORKED };
    let points = spread(count);
    alike(bits(&load::<Untouched>(options, &points)) == bits(&load::<Patched>(options, &points)))
}

fn alike(same: bool) -> String {
    let text = match same {
        true => "alike",
        false => "different",
    };
    text.to_string()
}

/// The tables 1 and 0 by bits.
fn bits<J: Judge>(build: &J) -> Vec<[u64; 6]> {
    let row = |e: &Entry| [e.x, e.y, e.seen, e.id, e.parent, e.num].map(f64::to_bits);
    let tables = [1, 0].map(|zoom| build.table(zoom).expect("a table"));
    tables.concat().iter().map(row).collect()
}
