//! SCOPE's worked lines, each put to the builds of the Rust: the table lister, 'The worked example', what is easy to
//! get wrong, and a few more answers that SCOPE's text fixes.

use crate::{
    attempt::attempt,
    plain::{
        ids, listed, points, spots, Entry, Item, Options, BELOW_QUARTER, ENERGIES, LAMPS, WORKED,
    },
    report::Report,
};
use beside::judge::{Judge, Patched, Ringed, Untouched};
use std::{hint::black_box, process::ExitCode};

/// What is compared, what SCOPE says, and the question to the Rust.
type Line = (&'static str, &'static str, fn() -> String);

/// Lines of 'The worked example' that the Rust does not have: it refuses no option and no id, and lists all at
/// limit 0 where SCOPE lists nothing. It keeps no owners: theirs are found by its leaves.
const NOT_THE_RUSTS: [&str; 5] = [
    "id 3 refused 6",
    "max_zoom 31 refused 1",
    "node_size 0 refused 1",
    "leaves of 5: limit 0 offset 0 lists nothing",
    "owner of lamp 4 refused 16",
];

/// The seven lines of 'The table lister', with the energies.
const LISTER: &str = lister_reference::WORKED_TABLES;

/// Runs every line against every build; that of the rings only where the Rust has the rule of #106.
pub fn run() -> ExitCode {
    let mut report = Report::default();
    against::<Untouched>(&mut report);
    against::<Ringed>(&mut report);
    against::<Patched>(&mut report);
    compare(rings::<Ringed>(), Ringed::NAME, &mut report);
    compare(rings::<Patched>(), Patched::NAME, &mut report);
    for what in NOT_THE_RUSTS {
        report.not_the_rusts(what);
    }
    report.finish("worked")
}

fn against<J: Judge>(report: &mut Report) {
    let lister = attempt(lister::<J>);
    let found: Vec<&str> = lister.lines().collect();
    for (i, expected) in LISTER.lines().enumerate() {
        let found = found.get(i).copied().unwrap_or("no line");
        report.compare(&format!("{}: lister: {found}", J::NAME), expected, found);
    }
    let count = found.len().to_string();
    report.compare(&format!("{}: lister: 7 lines", J::NAME), "7", &count);
    let mut lines = ids_and_walks::<J>();
    lines.extend(tiles_and_bounds::<J>());
    lines.extend(easy_to_get_wrong::<J>());
    lines.extend(further::<J>());
    compare(lines, J::NAME, report);
}

fn compare(lines: Vec<Line>, build: &str, report: &mut Report) {
    for (what, expected, question) in lines {
        report.compare(&format!("{build}: {what}"), expected, &attempt(question));
    }
}

/// 'The worked example': ids, children, leaves, expansion zoom, owners.
fn ids_and_walks<J: Judge>() -> Vec<Line> {
    vec![
        ("id 70 decodes to origin 2, table 2", "2,2", || decoded::<J>(70)),
        ("id 5 decodes to origin 0, table 1", "0,1", || decoded::<J>(5)),
        ("children of 5 are entries 0,1 of table 1", "0,1", children_of_5::<J>),
        ("leaves of 5: limit 10 offset 0", "0,1,2,3", || leaves::<J>(10, 0)),
        ("leaves of 5: limit 3 offset 1", "1,2,3", || leaves::<J>(3, 1)),
        ("leaves of 5: limit 4, its count, offset 0", "0,1,2,3", || leaves::<J>(4, 0)),
        ("leaves of 5: limit 0 offset 1", "nothing", || leaves::<J>(0, 1)),
        ("expansion zoom of 5 is 1", "1", || expansion::<J>(5)),
        ("expansion zoom of 6 is 2", "2", || expansion::<J>(6)),
        ("id 4 refused 6", "ClusterNotFound", || children::<J>(4)),
        ("id 7 refused 5", "TreeNotFound", || children::<J>(7)),
        ("id 134 refused 6", "ClusterNotFound", || children::<J>(134)),
        ("owners in table 2; 1; 0, by its leaves", "0,1,2,3; 0,0,1,1; 0,0,0,0", owners::<J>),
    ]
}

/// 'The worked example': tiles, rounding, the largest max_zoom.
fn tiles_and_bounds<J: Judge>() -> Vec<Line> {
    vec![
        ("tile (0,0,0) has one item", "entry 0 at (176,256)", tile_000::<J>),
        ("0.5 becomes 1, -0.5 becomes -1: x in a tile", "(1,1),(-1,1),(2,1)", || rounded::<J>(0)),
        ("-0.5 rounds to -1: x and y in a tile", "(-1,-1),(2,-1)", || rounded::<J>(1)),
        ("max_zoom 30 built", "32 tables; 99 is 2,3 of table 31", zoom_30::<J>),
        ("a lamp at (1, 0.5) is listed twice", "(512,256),(0,256)", || edges::<J>(&[65_536])),
    ]
}

/// What is easy to get wrong: only free neighbours count, sums and copies follow the answers, both strips run at z = 0.
fn easy_to_get_wrong<J: Judge>() -> Vec<Line> {
    const SINGLE: &str = "2: 0,1,2,3 of 1,1,1,1; 1: 0,1,2,3 of 1,1,1,1; 0: 0,1,2,3 of 1,1,1,1";
    const STRIPS: &str = "(0,256),(512,256),(0,256),(512,256)";
    vec![
        ("min_points 3: four single lamps down to table 0", SINGLE, min_points_3::<J>),
        ("a centre, summed in answer order", "3fd9999999999999", centre::<J>),
        ("answer order of those neighbours", "0,2,1", || answer_order::<J>()),
        ("that centre from sums in answer order", "3fd9999999999999", || summed::<J>([0, 2, 1])),
        ("from sums in table order: other bits", "3fd999999999999b", || summed::<J>([0, 1, 2])),
        ("entries are copied in answer order", "0,2,1", copied::<J>),
        ("lamps at both edges, both strips at z = 0", STRIPS, || edges::<J>(&[0, 65_536])),
    ]
}

/// Further answers that SCOPE's text fixes.
fn further<J: Judge>() -> Vec<Line> {
    vec![
        ("id 38 has no children: refused 6", "ClusterNotFound", || children::<J>(38)),
        ("tile (1,1,1) is empty: refused 8", "TileNotFound", tile_111::<J>),
        ("powi gives 2^0 to 2^31 exactly", "32", || powers(|n| 2.0_f64.powi(n))),
        ("powf gives 2^0 to 2^31 exactly", "32", || powers(|n| f64::powf(2.0, f64::from(n)))),
    ]
}

/// SCOPE's corner, as #106 has it: no entry that passes is skipped. The untouched Rust's answers are on the page of the
/// differences.
fn rings<J: Judge>() -> Vec<Line> {
    vec![
        ("three that pass beside a rounded edge", "0,1,2", || rounded_edge::<J>(1)),
        ("the same three in an unsplit index", "0,1,2", || rounded_edge::<J>(64)),
    ]
}

/// SCOPE's worked build.
fn example<J: Judge>() -> J {
    load(WORKED, &points(&LAMPS))
}

fn load<J: Judge>(options: Options, points: &[[f64; 2]]) -> J {
    J::load(&options, points).unwrap_or_else(|error| panic!("not loaded: {error}"))
}

fn table<J: Judge>(build: &J, zoom: usize) -> Vec<Entry> {
    build.table(zoom).unwrap_or_else(|| panic!("no table {zoom}"))
}

/// The ids of a table's entries, listed.
fn table_ids<J: Judge>(build: &J, zoom: usize) -> String {
    let ids: Vec<f64> = table(build, zoom).iter().map(|entry| entry.id).collect();
    listed(&ids)
}

/// The place of an id in a table.
fn place<J: Judge>(build: &J, zoom: usize, id: usize) -> usize {
    let place = table(build, zoom).iter().position(|entry| entry.id == id as f64);
    place.unwrap_or_else(|| panic!("no {id} in table {zoom}"))
}

/// The items of an answer; the Rust's error ends the line.
fn answered(answer: Result<Vec<Item>, String>) -> Vec<Item> {
    answer.unwrap_or_else(|error| panic!("{error}"))
}

/// The tables of SCOPE's build in the form of the table lister.
fn lister<J: Judge>() -> String {
    let build = example::<J>();
    let mut text = String::new();
    for zoom in [2, 1, 0] {
        for (place, entry) in table(&build, zoom).iter().enumerate() {
            text += &format!("{zoom} {place} {} {}\n", fields(entry), energy(&build, entry));
        }
    }
    text
}

/// The last fields of a line of the table lister but for the energy.
fn fields(entry: &Entry) -> String {
    let or_unset = |number: f64, unset: f64| match number == unset {
        true => "-".to_string(),
        false => number.to_string(),
    };
    let [x, y] = [entry.x, entry.y].map(f64::to_bits);
    let seen = or_unset(entry.seen, f64::INFINITY);
    let parent = or_unset(entry.parent, -1.0);
    format!("{x:016x} {y:016x} {seen} {} {parent} {}", entry.id, entry.num)
}

/// The energies of an entry's lamps, added up.
fn energy<J: Judge>(build: &J, entry: &Entry) -> u64 {
    lamps(build, entry).iter().map(|lamp| ENERGIES[*lamp]).sum()
}

/// The lamps of an entry: its leaves, or itself.
fn lamps<J: Judge>(build: &J, entry: &Entry) -> Vec<usize> {
    let id = entry.id as usize;
    match entry.num > 1.0 {
        true => build.leaves(id, usize::MAX, 0).iter().map(|lamp| lamp.id).collect(),
        false => vec![id],
    }
}

/// For each table the place of the entry that has each lamp.
fn owners<J: Judge>() -> String {
    let build = example::<J>();
    let in_table = |zoom| {
        let mut owners = LAMPS.map(|_| "none".to_string());
        for (place, entry) in table(&build, zoom).iter().enumerate() {
            lamps(&build, entry).iter().for_each(|lamp| owners[*lamp] = place.to_string());
        }
        listed(&owners)
    };
    [2, 1, 0].map(in_table).join("; ")
}

fn decoded<J: Judge>(id: usize) -> String {
    let (origin, table) = example::<J>().decode(id);
    listed(&[origin, table])
}

fn children_of_5<J: Judge>() -> String {
    let build = example::<J>();
    let children = answered(build.children(5));
    let places: Vec<usize> = children.iter().map(|item| place(&build, 1, item.id)).collect();
    listed(&places)
}

/// The children of an id, or the name of the Rust's error.
fn children<J: Judge>(id: usize) -> String {
    example::<J>().children(id).map_or_else(|error| error, |items| ids(&items))
}

fn leaves<J: Judge>(limit: usize, offset: usize) -> String {
    ids(&example::<J>().leaves(5, limit, offset))
}

fn expansion<J: Judge>(id: usize) -> String {
    example::<J>().expansion_zoom(id).to_string()
}

fn tile_000<J: Judge>() -> String {
    let build = example::<J>();
    let items = answered(build.tile(0, 0.0, 0.0));
    let text =
        |item: &Item| format!("entry {} at ({},{})", place(&build, 0, item.id), item.x, item.y);
    listed(&items.iter().map(text).collect::<Vec<_>>())
}

fn tile_111<J: Judge>() -> String {
    example::<J>().tile(1, 1.0, 1.0).map_or_else(|error| error, |items| spots(&items))
}

/// Where tile (z,z,z) puts a lone lamp when the extent and the radius are 1: it lies half a tile
/// from the tile's corner, and the edge strips list it as well.
fn rounded<J: Judge>(z: u8) -> String {
    let options = Options { radius: 1.0, extent: 1.0, ..WORKED };
    let at = 0.5 / f64::from(1 + z);
    let build = load::<J>(options, &[[at, at]]);
    spots(&answered(build.tile(z, f64::from(z), f64::from(z))))
}

fn zoom_30<J: Judge>() -> String {
    let build = load::<J>(Options { max_zoom: 30, ..WORKED }, &points(&LAMPS));
    let tables = (0..=255).filter(|zoom| build.table(*zoom).is_some()).count();
    let (_, decoded) = build.decode(99);
    format!("{tables} tables; 99 is {} of table {decoded}", ids(&answered(build.children(99))))
}

/// Tile (0,0,0) over lamps at these x, in 65,536ths, and y 0.5.
fn edges<J: Judge>(xs: &[u32]) -> String {
    let lamps: Vec<[u32; 2]> = xs.iter().map(|x| [*x, 32_768]).collect();
    spots(&answered(load::<J>(WORKED, &points(&lamps)).tile(0, 0.0, 0.0)))
}

fn min_points_3<J: Judge>() -> String {
    let build = load::<J>(Options { min_points: 3, ..WORKED }, &points(&LAMPS));
    let line = |zoom| {
        let nums: Vec<f64> = table(&build, zoom).iter().map(|entry| entry.num).collect();
        format!("{zoom}: {} of {}", table_ids(&build, zoom), listed(&nums))
    };
    [2, 1, 0].map(line).join("; ")
}

/// Three lamps, all neighbours of each other at zoom 0, in an index that is split.
const NEAR: Options = Options { max_zoom: 0, radius: 512.0, node_size: 1, ..WORKED };
const THREE: [f64; 3] = [0.4, 0.2, 0.6];

fn three<J: Judge>() -> J {
    load(NEAR, &THREE.map(|x| [x, 0.5]))
}

fn centre<J: Judge>() -> String {
    format!("{:016x}", table(&three::<J>(), 0)[0].x.to_bits())
}

fn answer_order<J: Judge>() -> String {
    listed(&three::<J>().within(1, THREE[0], 0.5, 1.0))
}

/// The centre by sums over the Rust's own entries in this order.
fn summed<J: Judge>(order: [usize; 3]) -> String {
    let lamps = table(&three::<J>(), 1);
    let sum = order.iter().fold(0.0, |sum, place| sum + lamps[*place].x * lamps[*place].num);
    format!("{:016x}", (sum / 3.0_f64).to_bits())
}

/// Table 0 where four lamps would be needed for a cluster.
fn copied<J: Judge>() -> String {
    let lamps = [[26_214, 32_768], [13_107, 32_768], [39_321, 32_768]];
    table_ids(&load::<J>(Options { min_points: 4, ..NEAR }, &points(&lamps)), 0)
}

/// The members of SCOPE's example of a rounded edge: each of the three passes the distance test.
fn rounded_edge<J: Judge>(node_size: usize) -> String {
    let points = [BELOW_QUARTER, BELOW_QUARTER, 0.5].map(|x| [x, 0.5]);
    let mut places = J::index_within(node_size, &points, [1.0, 0.5, 0.75]);
    places.sort_unstable();
    listed(&places)
}

/// How many of 2^0 to 2^31 come out with the bits of that power.
fn powers(power: fn(i32) -> f64) -> String {
    let exact = |n: &i32| power(black_box(*n)).to_bits() == ((n + 1023) as u64) << 52;
    (0..32).filter(exact).count().to_string()
}
