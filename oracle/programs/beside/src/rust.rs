//! A build of the Rust, asked a question of the port.

use crate::{
    judge::{Judge, Table},
    plans, Entry, Item,
};
use asked::Build;
use questions::{home, Question};
use rust_builds::data;
use std::collections::BTreeMap;

/// What the Rust says to a question.
#[derive(Debug, PartialEq)]
pub enum Said {
    /// The features of an answer.
    Items(Vec<Item>),
    /// The places that a search of an index answers.
    Places(Vec<usize>),
    Number(usize),
    NoTree,
    NoCluster,
    NoTile,
}

/// An instance with its tables.
pub struct Rust<J>(J);

impl<J: Judge> Rust<J> {
    /// The points of a build, loaded.
    pub fn loaded(build: &Build) -> Rust<J> {
        let loaded = J::load(&build.state.options, &lamps(build));
        Rust(loaded.unwrap_or_else(|error| panic!("not loaded: {error}")))
    }

    /// The tables of a state, whoever made them, in the Rust's fields.
    pub fn over(build: &Build) -> Rust<J> {
        let Build { state, columns, .. } = build;
        let table = |zoom| {
            let at = state.positions(zoom);
            Table {
                zoom,
                ids: columns.ids[at.clone()].iter().map(|place| *place as usize).collect(),
                coords: columns.coords[2 * at.start..2 * at.end].to_vec(),
                data: at.flat_map(|at| data(&columns.lent().entry(at))).collect(),
            }
        };
        let tables = (state.coarsest()..=state.finest()).map(table).collect();
        Rust(J::over(&state.options, &lamps(build), tables))
    }

    /// The children of a cluster.
    pub fn children(&self, id: u32) -> Said {
        said(self.0.children(id as usize))
    }

    /// The lamps of a cluster: as many as the limit, after as many as the offset.
    pub fn leaves(&self, id: u32, limit: u32, offset: u32) -> Said {
        Said::Items(self.0.leaves(id as usize, limit as usize, offset as usize))
    }

    /// The places that a ring answers in the table of a zoom.
    pub fn within(&self, zoom: u8, [x, y, radius]: [f64; 3]) -> Vec<usize> {
        self.0.within(zoom, x, y, radius)
    }

    /// The items of a tile, with its strips.
    pub fn tile(&self, z: u8, x: u32, y: u32) -> Said {
        said(self.0.tile(z, f64::from(x), f64::from(y)))
    }

    /// The tally of a tile by the words of #104: the counts of the distinct features of its tile whose centre, as its own
    /// table has it, lies in this one. Where there is no such tile it is what the Rust's tile says.
    fn tally(&self, build: &Build, z: u8, x: u32, y: u32) -> Said {
        let is_tile = z < 32 && u64::from(x.max(y)) < 1 << z;
        let nums: BTreeMap<usize, usize> = match self.tile(z, x, y) {
            Said::Items(items) if is_tile => items.iter().map(|item| (item.id, item.num)).collect(),
            Said::NoTile if is_tile => BTreeMap::new(),
            said => return said,
        };
        let table = self.0.table(build.state.zoom_used(z)).expect("a table of the zoom used");
        let at_home = |entry: &&Entry| [home(z, entry.x), home(z, entry.y)] == [x, y];
        let count = |entry: &Entry| nums.get(&(entry.id as usize)).copied().unwrap_or(0);
        Said::Number(table.iter().filter(at_home).map(count).sum())
    }

    /// Asks, where a box has corners that the Rust can be given. Where the strips are left out, a tile is its own range:
    /// the Rust's `get_tile` has no such option. A tally is the same with them and without.
    pub fn ask(&self, build: &Build, question: &Question) -> Option<Said> {
        let Rust(rust) = self;
        if let Some((z, x, y)) = plans::without_strips(&build.state.options, question) {
            return Some(said(rust.own_range(z, f64::from(x), f64::from(y))));
        }
        Some(match *question {
            Question::Box { zoom, corners } => {
                said(rust.in_box(build.rust_corners(corners)?, zoom))
            }
            Question::Ring { zoom, circle } => Said::Places(self.within(zoom, circle)),
            Question::Children { id } => self.children(id),
            Question::Leaves { id, limit, offset } => self.leaves(id, limit, offset),
            Question::ExpansionZoom { id } => Said::Number(rust.expansion_zoom(id as usize)),
            Question::Tile { z, x, y } => self.tile(z, x, y),
            Question::Tally { z, x, y } => self.tally(build, z, x, y),
        })
    }
}

/// The points of a build, one by one.
fn lamps(build: &Build) -> Vec<[f64; 2]> {
    let [xs, ys] = &build.points;
    xs.iter().zip(ys).map(|(x, y)| [*x, *y]).collect()
}

fn said(answer: Result<Vec<Item>, String>) -> Said {
    match answer {
        Ok(items) => Said::Items(items),
        Err(error) => match error.as_str() {
            "TreeNotFound" => Said::NoTree,
            "ClusterNotFound" => Said::NoCluster,
            "TileNotFound" => Said::NoTile,
            other => panic!("no error of the Rust: {other}"),
        },
    }
}
