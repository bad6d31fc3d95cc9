//! SCOPE's worked build with something changed in its columns: what a walk goes on into, what a slot names, what a
//! tile finds. Its tables stand at the positions 0 to 3, 4 and 5, and 6.

use super::cases::{lamps, with_rooms, Case};
use asked::Build;
use columns::NO_PARENT as NONE;
use questions::Question;
use splitmix::Splitmix;

/// The changes to the build of four lamps.
const CHANGES: [fn(&mut Build); 18] = [
    // A child cluster with an id below N; a table that is not larger; one that is not built; an origin past
    // its table; no children.
    |build| build.columns.id[4] = 3,
    |build| build.columns.id[4] = 5,
    |build| build.columns.id[4] = 7,
    |build| build.columns.id[4] = 134,
    |build| build.columns.id[4] = 38,
    // A sole child: a cluster, one that cannot be entered, one without children, a lamp.
    |build| build.columns.parent[5] = NONE,
    |build| (build.columns.parent[5], build.columns.id[4]) = (NONE, 3),
    |build| build.columns.parent.copy_from_slice(&[NONE, NONE, 70, 70, 5, NONE, NONE]),
    |build| (build.columns.parent[5], build.columns.num[4]) = (NONE, 1),
    // A slot past the table; a cluster of none and one of more than there are; places outside [0,1].
    |build| build.columns.ids[2] = 4,
    |build| build.columns.num[4] = 0,
    |build| build.columns.num[4] = u32::MAX,
    |build| build.columns.x[6] = 1.5,
    |build| build.columns.y[6] = f64::NAN,
    // A slot past the table after a child of the cluster; no child of the cluster.
    |build| build.columns.ids[5] = 2,
    |build| (build.columns.parent[4], build.columns.parent[5]) = (NONE, NONE),
    // Energies that no build leaves, and one energy less than there are entries.
    |build| build.columns.energy = vec![u64::MAX; 7],
    |build| build.columns.energy.truncate(6),
];

/// A case for each, and the build of three lamps of which one cluster is found twice.
pub fn all(source: &mut Splitmix) -> Vec<Case> {
    let mut builds: Vec<(Build, u32)> = CHANGES
        .iter()
        .map(|change| {
            let mut build = lamps(4);
            change(&mut build);
            (build, 5)
        })
        .collect();
    let mut twice = lamps(3);
    twice.columns.ids[4] = 0;
    builds.push((twice, 4));
    builds.into_iter().map(|(build, id)| with_rooms(build, questions(id), source)).collect()
}

/// Questions by the id of the cluster of all lamps, and the tile of the whole map.
fn questions(id: u32) -> Vec<Question> {
    let mut all = vec![Question::Children { id }, Question::ExpansionZoom { id }];
    for (limit, offset) in [(10, 0), (2, 0), (10, 1), (10, 2), (0, 0), (0, u32::MAX - 1)] {
        all.push(Question::Leaves { id, limit, offset });
    }
    all.push(Question::Box { zoom: 2, corners: [0.0, 0.0, 1.0, 1.0] });
    all.push(Question::Tile { z: 0, x: 0, y: 0 });
    all.push(Question::Tally { z: 0, x: 0, y: 0 });
    all
}
