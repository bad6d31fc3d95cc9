//! Both builds of the Rust, asked for a box.

use super::{boxes::Corners, Entries};
use asked::Build;
use beside::judge::{Judge, Patched, Untouched};
use rust_builds::WITHOUT_WINDOW;

/// The patched Rust, and the untouched one where the points are so few that it arranges them alike and it made the
/// same tables of them.
pub struct Rusts {
    patched: Patched,
    untouched: Option<Untouched>,
}

impl Rusts {
    /// The points of a build, loaded by each.
    pub fn loaded(build: &Build) -> Rusts {
        let patched: Patched = loaded(build);
        let few = build.points[0].len() <= WITHOUT_WINDOW;
        let untouched = few.then(|| loaded(build)).filter(|rust| {
            let zooms = build.state.coarsest()..=build.state.finest();
            zooms.into_iter().all(|zoom| entries(rust, zoom) == entries(&patched, zoom))
        });
        Rusts { patched, untouched }
    }

    /// Whether the untouched Rust is asked too.
    pub fn are_two(&self) -> bool {
        self.untouched.is_some()
    }

    /// What the patched Rust gives for a box. Where the untouched one gives something else, an entry that is in no
    /// table stands behind it.
    pub fn ask(&self, of: Corners, zoom: u8) -> Entries {
        let mut given = ask(&self.patched, of, zoom);
        if self.untouched.as_ref().is_some_and(|rust| ask(rust, of, zoom) != given) {
            given.push((usize::MAX, 0));
        }
        given
    }
}

fn loaded<J: Judge>(build: &Build) -> J {
    let [xs, ys] = &build.points;
    let points: Vec<[f64; 2]> = xs.iter().zip(ys).map(|(x, y)| [*x, *y]).collect();
    let rust = J::load(&build.state.options, &points);
    rust.unwrap_or_else(|error| panic!("not loaded: {error}"))
}

fn ask<J: Judge>(rust: &J, of: Corners, zoom: u8) -> Entries {
    let items = rust.in_box(of, zoom).unwrap_or_else(|error| panic!("no box: {error}"));
    items.iter().map(|item| (item.id, item.num)).collect()
}

/// The bits of every entry of a table, which says how it is arranged too, up to `WITHOUT_WINDOW` of them.
fn entries<J: Judge>(rust: &J, zoom: usize) -> Vec<[u64; 6]> {
    let table = rust.table(zoom).expect("a table");
    let numbers = table.iter().map(|of| [of.x, of.y, of.seen, of.id, of.parent, of.num]);
    numbers.map(|of| of.map(f64::to_bits)).collect()
}
