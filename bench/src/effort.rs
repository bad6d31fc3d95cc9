//! A box within a stated effort: without a limit beside the same box, and a wide box that is stopped after a number of
//! tests, call by call. Both sides are the port's: the Rust has no such question.

use crate::{
    clock::timed,
    points::SHAPES,
    questions::{corners, counted, Both, AREAS, FINEST},
    rounds::{measured, Side},
    table, Size,
};
use reachvolem::lent::Asked;
use splitmix::Splitmix;

/// How many tests a wide box is allowed, how many such boxes are asked, and how many without an effort.
const TESTS: usize = 1_000;
const CALLS: usize = 10_000;
const PLAIN: usize = 21;

/// The tables of the largest build; or what differed.
pub fn run(size: &Size) -> Result<(), String> {
    let [count, rounds] = *size.loads.last().expect("a build");
    for shape in SHAPES {
        println!();
        println!("boxes within an effort over a build of {count} points, {}", shape.name());
        println!();
        let both = Both::of(&shape.points(count));
        let mut out = vec![0; count];
        let mut source = Splitmix(3);
        table::effort_head();
        for [answers, most] in AREAS {
            let half = (answers as f64 / count as f64).sqrt() / 2.0;
            let spots = spots(most / size.fewer, &mut source);
            unlimited(both.asked(), half, &spots, rounds, &mut out)?;
        }
        println!();
        table::calls_head();
        stopped(both.asked(), &mut source, &mut out)?;
    }
    Ok(())
}

/// So many places, spread evenly.
fn spots(most: usize, source: &mut Splitmix) -> Vec<[f64; 2]> {
    (0..most).map(|_| [source.unit(), source.unit()]).collect()
}

/// Boxes with no limit, beside the same boxes without an effort.
fn unlimited(
    asked: Asked,
    half: f64,
    spots: &[[f64; 2]],
    rounds: usize,
    out: &mut [u32],
) -> Result<(), String> {
    let mut other = vec![0; out.len()];
    let mut effort =
        |spot| asked.box_effort(FINEST, corners(spot, half), usize::MAX, out).reply.carried;
    let mut plain = |spot| asked.in_box(FINEST, corners(spot, half), &mut other).carried;
    let mut sides = [
        Side::new("within an effort", || counted(spots, &mut effort)),
        Side::new("the box", || counted(spots, &mut plain)),
    ];
    let measured = measured(rounds, &mut sides).map_err(|why| format!("unlimited: {why}"))?;
    let answers = measured.found.count as f64 / spots.len() as f64;
    table::effort_line("no limit", &format!("{answers:.1}"), spots.len(), &measured.times);
    Ok(())
}

/// Wide boxes, a quarter of the plane to all of it, stopped after the tests: each call by itself.
fn stopped(asked: Asked, source: &mut Splitmix, out: &mut [u32]) -> Result<(), String> {
    let mut wide =
        || corners([0.5, 0.5].map(|at| at + 0.1 * source.unit()), 0.25 + 0.25 * source.unit());
    let boxes: Vec<[f64; 4]> = (0..CALLS).map(|_| wide()).collect();
    let mut calls = Vec::with_capacity(CALLS);
    for corners in &boxes {
        let (reply, time) = timed(|| asked.box_effort(FINEST, *corners, TESTS, out));
        if reply.tested != TESTS || !reply.stopped || reply.reply.number != 0 {
            return Err(format!("{corners:?}: {reply:?}"));
        }
        calls.push(time);
    }
    let plain = |corners: &[f64; 4]| timed(|| asked.in_box(FINEST, *corners, out)).1;
    let plain: Vec<u64> = boxes[..PLAIN].iter().map(plain).collect();
    table::calls_line(&format!("{TESTS} tests of a wide box"), &calls, &plain);
    Ok(())
}
