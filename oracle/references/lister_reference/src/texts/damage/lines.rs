//! Damage by whole lines.

use super::place;
use splitmix::Splitmix;

/// The lines, each with its end.
fn lines(text: &[u8]) -> Vec<&[u8]> {
    text.split_inclusive(|byte| *byte == b'\n').collect()
}

/// The lines after something was done to them at a place.
fn changed(
    text: &[u8],
    source: &mut Splitmix,
    change: impl FnOnce(&mut Vec<&[u8]>, usize, &mut Splitmix),
) -> Vec<u8> {
    let mut lines = lines(text);
    if !lines.is_empty() {
        let at = place(lines.len(), source);
        change(&mut lines, at, source);
    }
    lines.concat()
}

pub fn dropped(text: &[u8], source: &mut Splitmix) -> Vec<u8> {
    changed(text, source, |lines, at, _| {
        lines.remove(at);
    })
}

pub fn doubled(text: &[u8], source: &mut Splitmix) -> Vec<u8> {
    changed(text, source, |lines, at, _| lines.insert(at, lines[at]))
}

pub fn swapped(text: &[u8], source: &mut Splitmix) -> Vec<u8> {
    changed(text, source, |lines, at, source| {
        let other = place(lines.len(), source);
        lines.swap(at, other);
    })
}

pub fn turned(text: &[u8], source: &mut Splitmix) -> Vec<u8> {
    changed(text, source, |lines, at, _| {
        let next = (at + 1) % lines.len();
        lines.swap(at, next);
    })
}

pub fn moved(text: &[u8], source: &mut Splitmix) -> Vec<u8> {
    changed(text, source, |lines, at, source| {
        let line = lines.remove(at);
        lines.insert(place(lines.len() + 1, source), line);
    })
}

pub fn empty(text: &[u8], source: &mut Splitmix) -> Vec<u8> {
    changed(text, source, |lines, at, _| lines.insert(at, b"\n"))
}

pub fn joined(text: &[u8], source: &mut Splitmix) -> Vec<u8> {
    changed(text, source, |lines, at, source| {
        let line = lines[at].strip_suffix(b"\n").unwrap_or(lines[at]);
        let between: &[u8] = source.pick(&[&b""[..], b" ", b"\r", b"\0"]);
        lines.splice(at..=at, [line, between]);
    })
}

pub fn carriage_return(text: &[u8], source: &mut Splitmix) -> Vec<u8> {
    changed(text, source, |lines, at, source| {
        let line = lines[at].strip_suffix(b"\n").unwrap_or(lines[at]);
        let end: &[u8] = source.pick(&[&b"\r\n"[..], b"\r\n", b"\r", b"\n\r"]);
        lines.splice(at..=at, [line, end]);
    })
}

/// The end of every line as another system writes it.
pub fn carriage_returns(text: &[u8], _: &mut Splitmix) -> Vec<u8> {
    text.iter().fold(Vec::new(), |mut copy, byte| {
        if *byte == b'\n' {
            copy.push(b'\r');
        }
        copy.push(*byte);
        copy
    })
}

/// A point more than is stated, or a part of one.
pub fn point_more(text: &[u8], source: &mut Splitmix) -> Vec<u8> {
    let more: [&[u8]; 3] = [b"x=16384\ny=32768\nwh=10\n", b"x=16384\ny=32768\n", b"x=16384\n"];
    [text, source.pick(&more)].concat()
}

/// A point less than is stated, or a part of one.
pub fn point_less(text: &[u8], source: &mut Splitmix) -> Vec<u8> {
    let mut lines = lines(text);
    let left = lines.len().saturating_sub(1 + source.below(3) as usize);
    lines.truncate(left);
    lines.concat()
}

/// No energies, as before #108, or one of them missing.
pub fn without_energy(text: &[u8], source: &mut Splitmix) -> Vec<u8> {
    let (mut lines, energies) = apart(text);
    if source.below(2) == 0 && !energies.is_empty() {
        let (missing, _) = energies[place(energies.len(), source)];
        lines = self::lines(text);
        lines.remove(missing);
    }
    lines.concat()
}

/// Every energy elsewhere: behind all points, before them, before its x, or between its x and its y.
pub fn energies_elsewhere(text: &[u8], source: &mut Splitmix) -> Vec<u8> {
    let places: [fn(usize) -> usize; 4] =
        [|_| usize::MAX, |number| 7 + number, |number| 7 + 3 * number, |number| 8 + 3 * number];
    let place = source.pick(&places);
    let (mut lines, energies) = apart(text);
    for (number, (_, energy)) in energies.into_iter().enumerate() {
        lines.insert(place(number).min(lines.len()), energy);
    }
    lines.concat()
}

/// The lines that state no energy, and those that do, with their numbers.
fn apart(text: &[u8]) -> (Vec<&[u8]>, Vec<(usize, &[u8])>) {
    let all = lines(text).into_iter().enumerate();
    let (energies, others): (Vec<_>, Vec<_>) = all.partition(|(_, line)| line.starts_with(b"wh"));
    (others.into_iter().map(|(_, line)| line).collect(), energies)
}
