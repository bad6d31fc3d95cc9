//! Boxes over a table, many of them laid by others; their common part, and how two of them lie.

use asked::Scene;
use options::Range;
use splitmix::Splitmix;

/// Least x, least y, greatest x, greatest y, in a caller's coordinates.
pub type Corners = [f64; 4];

/// How two boxes lie, the first of these that fits.
#[derive(Clone, Copy)]
pub enum Kind {
    /// They are the same to the last bit.
    Same,
    /// Their common part is empty after normalising.
    Empty,
    /// It is empty as it is given, and no longer after normalising.
    EmptyAsGiven,
    /// A number of the one is 0, and that of the other -0.
    Zeros,
    /// A number of the one is the next to that of the other.
    Step,
    /// They have a number in common.
    Corner,
    Other,
}

impl Kind {
    pub fn of([a, b]: [Corners; 2], range: &Range) -> Kind {
        let some = |is: fn(f64, f64) -> bool| a.iter().zip(&b).any(|(a, b)| is(*a, *b));
        let of = common(a, b);
        match () {
            () if a.map(f64::to_bits) == b.map(f64::to_bits) => Kind::Same,
            () if empty(normalized(of, range)) => Kind::Empty,
            () if empty(of) => Kind::EmptyAsGiven,
            () if some(|a, b| a == b && a.to_bits() != b.to_bits()) => Kind::Zeros,
            () if some(|a, b| a.next_up() == b || b.next_up() == a) => Kind::Step,
            () if some(|a, b| a == b) => Kind::Corner,
            () => Kind::Other,
        }
    }
}

/// The larger of the least numbers, and the smaller of the greatest.
pub fn common(a: Corners, b: Corners) -> Corners {
    let larger = |a: f64, b: f64| if a < b { b } else { a };
    let smaller = |a: f64, b: f64| if b < a { b } else { a };
    [larger(a[0], b[0]), larger(a[1], b[1]), smaller(a[2], b[2]), smaller(a[3], b[3])]
}

/// Whether nothing lies in a box.
pub fn empty([west, least_y, east, greatest_y]: Corners) -> bool {
    east < west || greatest_y < least_y
}

pub fn normalized(of: Corners, range: &Range) -> Corners {
    of.map(|v| range.normalize(v))
}

/// So many boxes, of finite numbers that normalise to finite ones: the whole range first, and half of them laid by
/// earlier ones.
pub fn pool(scene: &Scene, range: &Range, count: usize, source: &mut Splitmix) -> Vec<Corners> {
    let (offset, most) = (range.offset(), range.offset() + range.scale());
    let mut boxes = vec![[offset, offset, most, most]];
    while boxes.len() < count {
        let fresh = fresh(scene, range, source);
        let of = match source.below(8) {
            0..=2 => like(source.pick(&boxes), fresh, source),
            3 => beside(source.pick(&boxes), fresh, source),
            _ => fresh,
        };
        if of.iter().chain(&normalized(of, range)).all(|v| v.is_finite()) {
            boxes.push(of);
        }
    }
    boxes
}

/// A box by the lamps, anywhere, around zero; some of them empty as they are given.
fn fresh(scene: &Scene, range: &Range, source: &mut Splitmix) -> Corners {
    let (offset, scale) = (range.offset(), range.scale());
    let [x, u] = [(); 2].map(|()| source.pick(scene.xs));
    let [y, v] = [(); 2].map(|()| source.pick(scene.ys));
    let between = [x.min(u), y.min(v), x.max(u), y.max(v)];
    match source.below(16) {
        0..=3 => between,
        4..=6 => {
            let [x, y, u, v] = [(); 4].map(|()| offset + (1.5 * source.unit() - 0.25) * scale);
            [x.min(u), y.min(v), x.max(u), y.max(v)]
        }
        7 => [x, y, u, v],
        8..=11 => source.pick(&[
            [offset, offset, offset + scale, offset + scale],
            [-f64::MAX, -f64::MAX, f64::MAX, f64::MAX],
            [offset - scale, y.min(v), x.max(u), offset + 2.0 * scale],
        ]),
        12..=13 => {
            let [p, q] = [(); 2].map(|()| source.pick(&[0.0, -0.0]));
            let [x, y, u, v] = between;
            source.pick(&[[p, q, u, v], [x, y, p, q], [p, q, q, p], [p, y, u, q]])
        }
        _ => {
            let half = scale * 0.5_f64.powi(source.below(6) as i32);
            [x - half, y - half, x + half, y + half]
        }
    }
}

/// An earlier box, each number as it is, one step beside it, with its other sign where it is 0, or another's.
fn like(of: Corners, fresh: Corners, source: &mut Splitmix) -> Corners {
    let mut at = 0..4;
    of.map(|v| {
        let at = at.next().expect("four numbers");
        match source.below(8) {
            0 | 1 => stepped(v, source),
            2 if v == 0.0 => -v,
            2 | 3 => fresh[at],
            _ => v,
        }
    })
}

/// A box that begins where an earlier one ends, or ends where that one begins; to the bit or one step beside it.
fn beside(of: Corners, fresh: Corners, source: &mut Splitmix) -> Corners {
    let mut result = if source.below(2) == 0 { of } else { fresh };
    let axis = source.below(2) as usize;
    let [from, to] = source.pick(&[[0, 2], [2, 0]]).map(|at| at + axis);
    result[to] = match source.below(3) {
        0 => of[from],
        _ => stepped(of[from], source),
    };
    result
}

/// A number one step up or down.
fn stepped(v: f64, source: &mut Splitmix) -> f64 {
    source.pick(&[v.next_down(), v.next_up()])
}
