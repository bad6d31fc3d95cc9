//! Readings posted to builds, each loaded by the port.

use super::Lent;
use crate::{
    owners::beyond,
    package::{self, needed},
    questions::port::Port,
    report::{other, other_column, Group},
    tables::Request,
};
use asked::Build;
use columns::Given;
use options::MOST_ENERGY;
use questions::{Refusal, State};
use reachvolem::lent::Reply;
use splitmix::Splitmix;

/// How often a build is looked at, how many pairs of readings are posted in either order, and how many old figures once more.
const LOOKS: usize = 24;
const PAIRS: usize = 8;
const BACK: usize = 4;

/// Figures that are too large.
const TOO_LARGE: [u64; 3] = [MOST_ENERGY + 1, 1 << 63, u64::MAX];

/// What was compared so far.
pub struct Builds {
    listed: Group,
    built: Group,
    orders: Group,
    back: Group,
    refused: Group,
    short: Group,
    builds: usize,
    readings: usize,
}

/// A build that is posted to: the figures of its lamps so far, and its energies.
#[derive(Clone)]
struct Posted<'a> {
    build: &'a Build,
    port: &'a Port,
    figures: Vec<u64>,
    energy: Box<[u64]>,
    /// What stands behind the tables in the column, if anything.
    behind: Vec<u64>,
}

impl Builds {
    pub fn new() -> Builds {
        Builds {
            listed: Group::new("posts, the energies beside the Rust's leaves"),
            built: Group::new("posts, the energies beside a new build"),
            orders: Group::new("posts, two readings in either order"),
            back: Group::new("posts, the old figure once more"),
            refused: Group::new("posts, no such lamp and figures too large"),
            short: Group::new("posts, a column too short"),
            builds: 0,
            readings: 0,
        }
    }

    /// One build.
    pub fn compare(&mut self, build: &Build, source: &mut Splitmix) {
        let port = match Port::loaded(build) {
            Ok(port) => port,
            Err(difference) => {
                return self.listed.compare(|| build.name(), Some(difference));
            }
        };
        self.builds += 1;
        let mut posted = Posted::of(build, &port, source);
        self.one_after_the_other(&mut posted, source);
        for _ in 0..PAIRS {
            self.in_either_order(&posted, source);
        }
        for _ in 0..BACK {
            self.there_and_back(&posted, source);
        }
        self.refusals(&posted);
        self.short_columns(&posted);
    }

    /// A series of readings, each posted to what the ones before left.
    fn one_after_the_other(&mut self, posted: &mut Posted, source: &mut Splitmix) {
        // How many readings are posted between two looks, and how many looks are between two new builds.
        let (readings, looks) = match posted.figures.len() {
            0..=64 => (1, 1),
            65..=700 => (1, 8),
            _ => (500, LOOKS),
        };
        for look in 1..=LOOKS {
            let mut refused = None;
            let mut last = (0, 0);
            for _ in 0..readings {
                last = posted.reading(source);
                refused = refused.or(posted.post(&[last]));
            }
            self.readings += readings;
            let about = || format!("{}, look {look}, last {last:?}", posted.build.name());
            self.listed.compare(about, refused.or_else(|| posted.is_not_listed()));
            if look % looks == 0 {
                self.built.compare(about, posted.is_not_built());
            }
        }
    }

    /// Two readings of different lamps.
    fn in_either_order(&mut self, posted: &Posted, source: &mut Splitmix) {
        let [one, other] = [posted.reading(source), posted.reading(source)];
        if one.0 == other.0 {
            return;
        }
        let [mut first, mut second] = [posted.clone(), posted.clone()];
        let refused = [first.post(&[one, other]), second.post(&[other, one])];
        let about = || format!("{}, {one:?} and {other:?}", posted.build.name());
        let differs = || other_column("energy", &first.energy, &second.energy);
        self.orders.compare(about, refused.into_iter().flatten().next().or_else(differs));
    }

    /// Another figure, and then the old one.
    fn there_and_back(&mut self, posted: &Posted, source: &mut Splitmix) {
        let (lamp, figure) = posted.reading(source);
        let old = posted.figures[lamp as usize];
        let mut back = posted.clone();
        let refused = back.post(&[(lamp, figure), (lamp, old)]);
        let about = || format!("{}, lamp {lamp}, {figure} and {old}", posted.build.name());
        let differs = || other_column("energy", &posted.energy, &back.energy);
        self.back.compare(about, refused.or_else(differs));
    }

    /// Lamps that the build does not have are refused before figures that are too large.
    fn refusals(&mut self, posted: &Posted) {
        let (lent, count) = (posted.lent(), posted.port.state.count);
        let mut compare = |reading: (u32, u64), refusal| {
            let about = || format!("{}, {reading:?}", posted.build.name());
            self.refused.compare(about, lent.differs(reading, Err(refusal)));
        };
        for lamp in beyond(count) {
            for figure in [0, MOST_ENERGY].into_iter().chain(TOO_LARGE) {
                compare((lamp, figure), Refusal::Lamp);
            }
        }
        for lamp in [0, count - 1] {
            TOO_LARGE.iter().for_each(|figure| compare((lamp, *figure), Refusal::Energy));
        }
    }

    /// Columns that are short are refused before any lamp and any figure.
    fn short_columns(&mut self, posted: &Posted) {
        let lent = posted.lent();
        let (count, owners) = (lent.state.count, lent.owners.len());
        let energies = entries(lent.state);
        let short_owners = [owners - 1, owners - count as usize, 0];
        let short_owners = short_owners.map(|length| (lent.energy.len(), length));
        let short_energies = [energies - 1, 0].map(|length| (length, owners));
        for (energies, owners) in short_owners.into_iter().chain(short_energies) {
            let (energy, owners) = (&lent.energy[..energies], &lent.owners[..owners]);
            let lent = Lent { energy, owners, ..lent };
            for reading in [(0, 1), (count - 1, MOST_ENERGY + 1), (count, 1), (count, u64::MAX)] {
                let lengths = [energy.len(), owners.len()];
                let about = || format!("{}, {reading:?}, {lengths:?}", posted.build.name());
                self.short.compare(about, lent.differs(reading, Err(Refusal::Spoiled)));
            }
        }
    }

    /// Says how much there was; the groups.
    pub fn told(self) -> Vec<Group> {
        let Builds { listed, built, orders, back, refused, short, builds, readings } = self;
        println!("builds that are posted to: {builds}, readings one after the other: {readings}");
        vec![listed, built, orders, back, refused, short]
    }
}

impl<'a> Posted<'a> {
    /// The columns that the port's build left, nothing posted yet.
    fn of(build: &'a Build, port: &'a Port, source: &mut Splitmix) -> Posted<'a> {
        let behind: Vec<u64> = (0..source.below(3)).map(|_| source.bits()).collect();
        let energy = [port.lent().energy, &behind].concat().into();
        Posted { build, port, figures: build.energies.clone(), energy, behind }
    }

    /// As it is lent.
    fn lent(&self) -> Lent<'_> {
        Lent { state: &self.port.state, energy: &self.energy, owners: self.port.owners() }
    }

    /// A reading: a lamp of the build, and a figure within its bounds.
    fn reading(&self, source: &mut Splitmix) -> (u32, u64) {
        let count = self.port.state.count;
        let lamp = match source.below(8) {
            0 => source.pick(&[0, count - 1]),
            _ => source.below(count.into()) as u32,
        };
        let old = self.figures[lamp as usize];
        let figure = match source.below(4) {
            0 => source.pick(&[0, 1, MOST_ENERGY - 1, MOST_ENERGY, old]),
            _ => source.below(MOST_ENERGY + 1),
        };
        (lamp, figure)
    }

    /// Posts readings one after the other; how the first of them that is refused is, if one is.
    fn post(&mut self, readings: &[(u32, u64)]) -> Option<String> {
        let Posted { port, figures, energy, .. } = self;
        readings.iter().find_map(|(lamp, figure)| {
            figures[*lamp as usize] = *figure;
            let reply = package::post(&port.state, energy, port.owners(), *lamp, *figure);
            other("reply", Reply { number: 0, carried: 0 }, reply)
        })
    }

    /// How the energies are not the sums over the lamps that the Rust lists for each entry, if they are not. What stands behind them
    /// is what stood there.
    fn is_not_listed(&self) -> Option<String> {
        let Posted { build, port, figures, energy, behind } = self;
        let mut expected = vec![0; entries(&port.state)];
        let zooms = (port.state.coarsest()..=port.state.finest()).rev();
        for (zoom, places) in zooms.zip(build.listed.chunks(figures.len())) {
            let start = port.state.starts[zoom] as usize;
            for (place, figure) in places.iter().zip(figures) {
                match expected.get_mut(start + *place as usize) {
                    Some(sum) => *sum += figure,
                    None => return Some("a lamp that the Rust does not list once".to_string()),
                }
            }
        }
        expected.extend(behind);
        other_column("energy", &expected, energy)
    }

    /// How the energies are not those of a new build with the figures so far, or how its tables are others, if so.
    fn is_not_built(&self) -> Option<String> {
        let Posted { build, port, figures, energy, .. } = self;
        let State { options, count, starts, lens } = &port.state;
        let given = Given { energies: figures, ..build.given() };
        let lengths = needed(options, *count as usize);
        let (left, state) = Request { options, given, lengths }.made().left();
        let entries = entries(&port.state);
        other("starts and lengths", [*starts, *lens], state)
            .or_else(|| other_column("energy", &left.tables.energy[..entries], &energy[..entries]))
            .or_else(|| other_column("owners", port.owners(), &left.owners[..port.owners().len()]))
    }
}

/// How many entries all tables of a build have.
fn entries(state: &State) -> usize {
    state.lens.iter().map(|length| *length as usize).sum()
}
