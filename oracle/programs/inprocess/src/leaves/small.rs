//! Many builds of a few points, by the port and by the patched Rust, each from its own tables.

use crate::{
    questions::{
        columns::Columns,
        port::{ask, Port},
    },
    Form,
};
use asked::Build;
use beside::{judge::Patched, Rust, Said};
use options::{corners, Options};
use questions::{Outcome, Question};
use splitmix::Splitmix;
use std::collections::BTreeMap;

/// How many builds with a cluster there are, in the short form and in the full one.
const BUILDS: [usize; 2] = [4_000, 100_000];

/// The most points.
const POINTS: u64 = 24;

/// One build on both sides.
pub struct Both<'a> {
    build: &'a Build,
    port: Port,
    rust: Rust<Patched>,
}

/// Builds until so many have a cluster; half of them have options as users have them, and half any in which lamps
/// come together. How many there were.
pub fn each(form: Form, source: &mut Splitmix, mut compare: impl FnMut(&Both)) -> usize {
    let wanted = form.of(BUILDS);
    let mut builds = 0;
    while builds < wanted {
        let count = 2 + source.below(POINTS - 1) as usize;
        let options = match source.below(2) {
            0 => corners::ordinary(source),
            _ => Options { min_points: 2, ..corners::any(source) },
        };
        let build = Build::made(options, count, source);
        if build.columns.num.iter().all(|num| *num <= 1) {
            continue;
        }
        let port = Port::loaded(&build);
        let port = port.unwrap_or_else(|how| panic!("{}: {how}", build.name()));
        compare(&Both { build: &build, port, rust: Rust::loaded(&build) });
        builds += 1;
    }
    builds
}

impl Both<'_> {
    /// What the build is.
    pub fn name(&self) -> String {
        self.build.name()
    }

    /// Every cluster of the port's tables, with its count.
    pub fn clusters(&self) -> BTreeMap<u32, u32> {
        let lent = self.port.lent();
        let entries = lent.id.iter().zip(lent.num).filter(|(_, num)| **num > 1);
        entries.map(|(id, num)| (*id, *num)).collect()
    }

    /// The lamps that the port lists, in a column with this room; or what is amiss.
    pub fn port(
        &self,
        id: u32,
        limit: u32,
        offset: u32,
        room: usize,
    ) -> Result<Vec<usize>, String> {
        let (question, rooms) = (Question::Leaves { id, limit, offset }, [room, 0, 0]);
        let mut columns = Columns::old(&rooms);
        let lent = &mut columns.lent(&rooms);
        let reply = ask(&self.port.state, &self.port.lent(), &question, lent);
        match columns.read(&question, reply, &rooms)? {
            Outcome::List(answer) if answer.refusal.is_none() => {
                Ok(answer.items.iter().map(|lamp| *lamp as usize).collect())
            }
            outcome => Err(format!("{outcome:?}")),
        }
    }

    /// The lamps that the Rust lists.
    pub fn rust(&self, id: u32, limit: u32, offset: u32) -> Result<Vec<usize>, String> {
        match self.rust.leaves(id, limit, offset) {
            Said::Items(items) if items.iter().all(|item| item.num == 1) => {
                Ok(items.iter().map(|item| item.id).collect())
            }
            said => Err(format!("{said:?}")),
        }
    }
}
