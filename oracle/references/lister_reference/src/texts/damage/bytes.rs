//! Damage by bytes, wherever they stand.

use super::place;
use splitmix::Splitmix;

/// What bytes are put where they do not belong: parts of the form, and what looks like them.
const STRAY: [&[u8]; 14] = [
    b"\n",
    b"\r\n",
    b" ",
    b"\t",
    b"\0",
    b"=",
    b"0",
    b"x",
    b"x=1\n",
    b"y=1\n",
    b"wh=1\n",
    b"x=1\ny=1\n",
    b"x=1\ny=1\nwh=1\n",
    b"count=0\n",
];

pub fn changed(text: &[u8], source: &mut Splitmix) -> Vec<u8> {
    let mut copy = text.to_vec();
    if let Some(byte) = copy.get_mut(place(text.len(), source)) {
        *byte = source.below(256) as u8;
    }
    copy
}

pub fn bit_changed(text: &[u8], source: &mut Splitmix) -> Vec<u8> {
    let mut copy = text.to_vec();
    if let Some(byte) = copy.get_mut(place(text.len(), source)) {
        *byte ^= 1 << source.below(8);
    }
    copy
}

pub fn dropped(text: &[u8], source: &mut Splitmix) -> Vec<u8> {
    let at = place(text.len(), source);
    [&text[..at], text.get(at + 1..).unwrap_or(&[])].concat()
}

pub fn doubled(text: &[u8], source: &mut Splitmix) -> Vec<u8> {
    let at = place(text.len(), source);
    [&text[..text.len().min(at + 1)], &text[at..]].concat()
}

/// A byte of the text, or any byte, put in anywhere.
pub fn inserted(text: &[u8], source: &mut Splitmix) -> Vec<u8> {
    let any = source.below(256) as u8;
    let own = text.get(place(text.len(), source)).copied().unwrap_or(any);
    let byte = source.pick(&[any, own]);
    put(text, place(text.len() + 1, source), &[byte])
}

pub fn swapped(text: &[u8], source: &mut Splitmix) -> Vec<u8> {
    let mut copy = text.to_vec();
    if !copy.is_empty() {
        copy.swap(place(text.len(), source), place(text.len(), source));
    }
    copy
}

/// A letter or a digit of another alphabet, in UTF-8, or a byte that is none.
pub fn past_ascii(text: &[u8], source: &mut Splitmix) -> Vec<u8> {
    let bytes = source.pick(&["é".as_bytes(), "٣".as_bytes(), "１".as_bytes(), &[0xff], &[0x80]]);
    put(text, place(text.len() + 1, source), bytes)
}

pub fn truncated(text: &[u8], source: &mut Splitmix) -> Vec<u8> {
    text[..place(text.len(), source)].to_vec()
}

pub fn beheaded(text: &[u8], source: &mut Splitmix) -> Vec<u8> {
    let at = place(text.len(), source);
    text.get(at + 1..).unwrap_or(&[]).to_vec()
}

pub fn without_last(text: &[u8], _: &mut Splitmix) -> Vec<u8> {
    text.strip_suffix(b"\n").unwrap_or(text).to_vec()
}

pub fn trailing(text: &[u8], source: &mut Splitmix) -> Vec<u8> {
    put(text, text.len(), source.pick(&STRAY))
}

/// Bytes at the front, a mark of the byte order among them.
pub fn leading(text: &[u8], source: &mut Splitmix) -> Vec<u8> {
    let stray = source.pick(&STRAY);
    put(text, 0, source.pick(&[stray, b"\xef\xbb\xbf"]))
}

/// As long as this: by lines of points, by line feeds, by bytes that are none of the form, or by zeros
/// before the last value.
pub fn padded(text: &[u8], length: usize, source: &mut Splitmix) -> Vec<u8> {
    let missing = length.saturating_sub(text.len());
    let (at, pad): (usize, &[u8]) = match source.below(4) {
        0 => (text.len(), b"x=1\ny=1\nwh=1\n"),
        1 => (text.len(), b"\n"),
        2 => (text.len(), b"\0"),
        _ => (text.iter().rposition(|byte| *byte == b'=').map_or(0, |at| at + 1), b"0"),
    };
    let filling: Vec<u8> = pad.iter().copied().cycle().take(missing).collect();
    put(text, at, &filling)
}

/// The text with these bytes put in.
fn put(text: &[u8], at: usize, bytes: &[u8]) -> Vec<u8> {
    [&text[..at], bytes, &text[at..]].concat()
}
