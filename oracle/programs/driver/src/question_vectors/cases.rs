//! What is asked in the vectors: SCOPE's worked build, the same with changes, builds of a few points, and states
//! that no build made, as many as it takes to come to every reply.

use super::{changed, fences};
use crate::{
    load_vectors::{energies_of, tables},
    plain::{columns, points as in_parts, ABOVE_QUARTER, LAMPS, REACHED, REACHING, WORKED},
};
use asked::{few, rooms, spoiled, Build, Rooms, ODD_LONGITUDES};
use beside::{judge::Untouched, Rust, Said};
use columns::Given;
use options::{corners, Options, Plane};
use points::{Drawn, SHAPES};
use questions::{Out, Question, State};
use rust_builds::Tables;
use splitmix::Splitmix;
use std::collections::BTreeMap;

/// A state with its columns, and questions, each with the lengths of the output columns.
pub struct Case {
    pub build: Build,
    pub questions: Vec<(Question, Rooms)>,
}

/// Every case.
pub fn all() -> Vec<Case> {
    let mut source = Splitmix(1);
    let mut all =
        vec![worked(&mut source), lamp_at_the_edge(WORKED, &mut source), row(&mut source)];
    all.extend(changed::all(&mut source));
    all.extend((0..BUILDS.len()).map(|number| of_points(number, &mut source)));
    all.extend(spoiled_ones());
    all.push(lamps_at_both_edges(&mut source));
    all.extend([1, 64].map(|node_size| beside_a_quarter(node_size, &mut source)));
    all.push(above_a_quarter(&mut source));
    let on_a_plan = Options { longitude_strips_only: true, ..WORKED };
    all.push(lamp_at_the_edge(on_a_plan, &mut source));
    all.extend(fences::all(&mut source));
    all.push(on_borders(&mut source));
    all
}

/// A build of points as the port takes them.
pub fn built(what: &str, options: Options, points: [Vec<f64>; 2]) -> Build {
    let [xs, ys] = &points;
    let energies = energies_of(&points);
    let given = Given { xs, ys, energies: &energies };
    let Tables { columns, starts, lens, listed } = tables(&options, &given);
    let state = State { options, count: xs.len() as u32, starts, lens };
    let ys = ys.clone();
    // The Rust is asked for latitudes of which y is the same everywhere: the poles and the equator.
    let what = what.to_string();
    Build { what, points, ys, energies, on_the_globe: false, state, columns, listed }
}

/// Each question with lengths of output columns around its answer's.
pub fn with_rooms(build: Build, questions: Vec<Question>, source: &mut Splitmix) -> Case {
    let mut one = |question: Question| {
        let outcome = question.answered(&build.state, &build.columns.lent());
        (question, rooms(outcome.length(), source))
    };
    let questions = questions.into_iter().map(&mut one).collect();
    Case { build, questions }
}

/// The build of SCOPE's first lamps, so many of them.
pub fn lamps(count: usize) -> Build {
    built("worked", WORKED, columns(&in_parts(&LAMPS[..count])))
}

/// SCOPE's worked example.
fn worked(source: &mut Splitmix) -> Case {
    let mut questions: Vec<Question> = [5, 6, 70, 3, 4, 7, 134, 38]
        .iter()
        .flat_map(|id| [Question::Children { id: *id }, Question::ExpansionZoom { id: *id }])
        .collect();
    for (limit, offset) in [(10, 0), (3, 1), (0, 0), (0, 1), (1, 2), (u32::MAX, 3), (10, 4)] {
        questions.push(Question::Leaves { id: 5, limit, offset });
    }
    questions.extend([3, 7, 134].map(|id| Question::Leaves { id, limit: 10, offset: 0 }));
    for (z, x, y) in [(0, 0, 0), (2, 1, 2), (1, 1, 1), (32, 0, 0), (0, 1, 0), (0, 0, 1)] {
        questions.extend([Question::Tile { z, x, y }, Question::Tally { z, x, y }]);
    }
    for zoom in [0, 1, 2, 255] {
        questions.push(Question::Box { zoom, corners: [0.25, 0.0, 0.375, 1.0] });
        questions.push(Question::Ring { zoom, circle: [0.25, 0.5, 0.0625] });
    }
    questions.push(Question::Ring { zoom: 2, circle: [0.25, 0.5, -0.0] });
    questions.push(Question::Ring { zoom: 2, circle: [1e300, 0.0, 1e200] });
    with_rooms(lamps(LAMPS.len()), questions, source)
}

/// SCOPE's lamp at (1, 0.5).
fn lamp_at_the_edge(options: Options, source: &mut Splitmix) -> Case {
    let tiles = [(0, 0, 0), (1, 0, 0), (1, 1, 0), (1, 0, 1), (31, 0, 1 << 30)];
    let both = |(z, x, y)| [Question::Tile { z, x, y }, Question::Tally { z, x, y }];
    let questions = tiles.into_iter().flat_map(both).collect();
    with_rooms(built("edge", options, [vec![1.0], vec![0.5]]), questions, source)
}

/// Lamps at both edges: at zoom 0 one tile has both strips.
fn lamps_at_both_edges(source: &mut Splitmix) -> Case {
    let questions = vec![Question::Tile { z: 0, x: 0, y: 0 }, Question::Tally { z: 0, x: 0, y: 0 }];
    with_rooms(built("edges", WORKED, [vec![0.0, 1.0], vec![0.5, 0.5]]), questions, source)
}

/// Lamps on the borders of tiles, one step beside them and at the ends, and the tally of every tile of the zooms 0 to 2,
/// of which each zoom's add up to N (#104).
fn on_borders(source: &mut Splitmix) -> Case {
    let half = 0.5_f64;
    let lamps = [
        [half, half],
        [half.next_down(), 0.25],
        [0.25, half.next_up()],
        [1.0, 1.0],
        [1.0, 0.75],
        [0.0, -0.0],
        [0.75_f64.next_down(), 0.0],
        [0.125, 1.0_f64.next_down()],
    ];
    let build = built("borders", WORKED, columns(&lamps));
    let of = |z: u8| (0..1_u32 << z).flat_map(move |y| (0..1 << z).map(move |x| (z, x, y)));
    let tallies = |z| of(z).map(|(z, x, y)| Question::Tally { z, x, y }).collect::<Vec<_>>();
    for z in 0..=2 {
        let answered = |question: &Question| {
            let outcome = question.answered(&build.state, &build.columns.lent());
            outcome.told(&mut Out { places: &mut [], x: &mut [], y: &mut [] }).carried
        };
        let sum: u64 = tallies(z).iter().map(answered).sum();
        assert_eq!(sum, lamps.len() as u64, "the tallies of zoom {z}");
    }
    with_rooms(build, (0..=2).flat_map(tallies).collect(), source)
}

/// SCOPE's corner: a lamp at x = 1 and two beside a quarter, which a rounded edge cuts off where the index is split. By
/// the rule of #106 all are one cluster, whose children and leaves they are.
fn beside_a_quarter(node_size: usize, source: &mut Splitmix) -> Case {
    let options = Options { node_size, ..REACHING };
    let build = built("beside a quarter", options, columns(&REACHED));
    let circle = [1.0, 0.5, 0.75];
    let mut questions =
        vec![Question::Ring { zoom: 1, circle }, Question::Ring { zoom: 0, circle }];
    questions.extend([Question::Children { id: 4 }, Question::ExpansionZoom { id: 4 }]);
    for (limit, offset) in [(10, 0), (1, 1), (2, 1)] {
        questions.push(Question::Leaves { id: 4, limit, offset });
    }
    let case = with_rooms(build, questions, source);
    assert_eq!(is_skipped_in(&case), node_size == 1, "a corner where the index is split");
    case
}

/// The like on y and on the other side, where the index is split by x first.
fn above_a_quarter(source: &mut Splitmix) -> Case {
    let ys = [vec![ABOVE_QUARTER; 9], vec![0.0; 3]].concat();
    let build = built("above a quarter", REACHING, [vec![0.5; 12], ys]);
    let circles = [[0.5, -1.0, 1.25], [0.5, -1.0, 1.25_f64.next_down()]];
    let questions = circles.map(|circle| Question::Ring { zoom: 1, circle }).to_vec();
    let case = with_rooms(build, questions, source);
    assert!(is_skipped_in(&case), "a corner");
    case
}

/// Whether the untouched Rust skips something in the ring that is asked first.
fn is_skipped_in(Case { build, questions }: &Case) -> bool {
    let (question, _) = questions[0];
    let length = question.answered(&build.state, &build.columns.lent()).length();
    match Rust::<Untouched>::over(build).ask(build, &question) {
        Some(Said::Places(places)) => places.len() < length,
        _ => false,
    }
}

/// Lamps around the equator, some of them at the date line, and boxes of all widths.
fn row(source: &mut Splitmix) -> Case {
    let longitudes = vec![-180.0, -170.0, 0.0, 170.0, 180.0];
    let options = Options { max_zoom: 0, radius: 0.0, node_size: 1, plane: Plane::Globe, ..WORKED };
    let build = built("row", options, [longitudes, vec![0.5; 5]]);
    let mut questions = Vec::new();
    for (w, e) in [
        (-180.00000000000006, -170.0),
        (180.0, 180.0),
        (170.0, -170.0),
        (-200.7, 159.3),
        (540.0, 540.0),
        (1e15, -1e15),
        (-f64::MAX, f64::MAX),
        (-180.0, 180.0),
    ] {
        questions.push(Question::Box { zoom: 1, corners: [w, 0.0, e, 1.0] });
    }
    questions.extend((0..12).map(|_| globe_box(&build, source)));
    for [least, greatest] in [[-0.25, 1.0], [0.0, 1.5], [f64::NAN, 1.0], [0.5, 0.5], [1.0, 0.0]] {
        questions.push(Question::Box { zoom: 1, corners: [-180.0, least, 180.0, greatest] });
    }
    with_rooms(build, questions, source)
}

/// A box of a longitude build, with numbers that are the same on every machine.
fn globe_box(build: &Build, source: &mut Splitmix) -> Question {
    let longitude = |source: &mut Splitmix| match source.below(3) {
        0 => source.pick(&build.points[0]) + source.pick(&[0.0, 360.0, -360.0]),
        1 => source.pick(&ODD_LONGITUDES),
        _ => 720.0 * source.unit() - 360.0,
    };
    let [w, e] = [longitude(source), longitude(source)];
    let [least, greatest] =
        source.pick(&[[0.0, 1.0], [0.0, 1.0], [0.5, 1.0], [0.0, 0.5], [0.25, 0.875], [0.5, 0.5]]);
    let zoom = source.pick(&[build.state.options.min_zoom, 255]);
    Question::Box { zoom, corners: [w, least, e, greatest] }
}

/// The builds of a few points: their number, min_zoom and max_zoom, and how they are drawn together.
const BUILDS: [(usize, [u8; 2], Drawn); 12] = [
    (1, [0, 0], Drawn::Not),
    (2, [0, 1], Drawn::By(2)),
    (2, [0, 30], Drawn::Each),
    (3, [2, 3], Drawn::By(3)),
    (4, [0, 2], Drawn::By(1)),
    (5, [3, 6], Drawn::Each),
    (6, [0, 1], Drawn::Not),
    (7, [0, 3], Drawn::By(2)),
    (8, [1, 2], Drawn::By(1)),
    (10, [0, 2], Drawn::By(2)),
    (14, [0, 1], Drawn::Not),
    (20, [0, 0], Drawn::By(1)),
];

/// One of them, with the shape and the coordinate system that are due.
fn of_points(number: usize, source: &mut Splitmix) -> Case {
    let (count, [min_zoom, max_zoom], drawn) = BUILDS[number];
    let options = Options {
        min_zoom,
        max_zoom,
        min_points: 2,
        node_size: [1, 2, 64][number % 3],
        plane: corners::plane(number, source),
        ..corners::ordinary(source)
    };
    let points = points::made(SHAPES[number % SHAPES.len()], count, source).drawn(drawn, source);
    let [xs, ys] = points.placed(&options.plane);
    let points = match options.plane {
        Plane::Cartesian(_) => [xs, ys],
        Plane::Globe => [xs, points.ys],
    };
    let build = built("points", options, points);
    let questions = asked_of(&build, source);
    with_rooms(build, questions, source)
}

/// A few questions, with numbers that are the same on every machine.
fn asked_of(build: &Build, source: &mut Splitmix) -> Vec<Question> {
    let questions = few(&build.scene(), source);
    let on_the_globe = matches!(build.state.options.plane, Plane::Globe);
    let one = |question| match question {
        Question::Box { .. } if on_the_globe => globe_box(build, source),
        question => question,
    };
    questions.into_iter().map(one).collect()
}

/// What a question of the spoiled states shows: its kind, the number of its reply, whether something is listed, and
/// whether the strips run for longitude only.
type Shown = (u64, u32, bool, bool);

/// So often every such thing is shown, as far as it is found.
const TIMES: usize = 3;

/// States of at most so many entries are taken, out of so many.
const ENTRIES: usize = 14;
const TRIED: usize = 4_000;

/// Spoiled states, each for what it shows that was not shown often enough. Those with y of latitudes are left
/// out: the Rust makes it by functions that are not the same to the bit everywhere.
fn spoiled_ones() -> Vec<Case> {
    let mut shown: BTreeMap<Shown, usize> = BTreeMap::new();
    let mut all = Vec::new();
    for number in 0..TRIED {
        let mut source = Splitmix(number as u64);
        let build = spoiled::one(number, &mut source);
        let entries = build.columns.x.len().max(build.columns.ids.len());
        if build.on_the_globe || entries > ENTRIES {
            continue;
        }
        let questions = asked_of(&build, &mut source);
        let case = with_rooms(build, questions, &mut source);
        if let Some(case) = of_use(case, &mut shown) {
            all.push(case);
        }
    }
    all
}

/// The questions of a case that show something which was not shown often enough, if it has any.
fn of_use(case: Case, shown: &mut BTreeMap<Shown, usize>) -> Option<Case> {
    let Case { build, questions } = case;
    let mut kept = Vec::new();
    for (question, rooms) in questions {
        let outcome = question.answered(&build.state, &build.columns.lent());
        let (mut places, mut x, mut y) = (vec![0; rooms[0]], vec![0; rooms[1]], vec![0; rooms[2]]);
        let reply = outcome.told(&mut Out { places: &mut places, x: &mut x, y: &mut y });
        let kind = super::question_words(&question)[0];
        let strips = build.state.options.longitude_strips_only && is_tile(&question);
        let times = shown.entry((kind, reply.number, outcome.length() > 0, strips)).or_default();
        if *times < TIMES {
            *times += 1;
            kept.push((question, rooms));
        }
    }
    (!kept.is_empty()).then_some(Case { build, questions: kept })
}

/// Whether a question is for a tile or its tally.
fn is_tile(question: &Question) -> bool {
    matches!(question, Question::Tile { .. } | Question::Tally { .. })
}
