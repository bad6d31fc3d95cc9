//! Damage to a line's value, to its key, and to what stands between them.

use super::place;
use splitmix::Splitmix;

/// Values on either side of every bound.
#[rustfmt::skip]
const BOUNDS: [u64; 18] = [
    0, 1, 2, 30, 31, 254, 255, 256, 1_151, 1_152, 1_153, 65_535, 65_536, 65_537, 999_999, 1_000_000, 9_999_999,
    10_000_000,
];

/// A line with its key and its value, each as it stands in the text.
struct Line<'a> {
    before: &'a [u8],
    key: &'a [u8],
    value: &'a [u8],
    after: &'a [u8],
}

impl Line<'_> {
    /// A line of the text by chance; where it has no sign of equality, all of it is its key.
    fn of<'a>(text: &'a [u8], source: &mut Splitmix) -> Line<'a> {
        let starts: Vec<usize> = (0..text.len()).filter(|at| starts_line(text, *at)).collect();
        let start = starts.get(place(starts.len(), source)).copied().unwrap_or(0);
        let line = text[start..].split(|byte| *byte == b'\n').next().unwrap_or(&[]);
        let length = line.iter().position(|byte| *byte == b'=').unwrap_or(line.len());
        let value = line.get(length + 1..).unwrap_or(&[]);
        let (before, after) = (&text[..start], &text[start + line.len()..]);
        Line { before, key: &line[..length], value, after }
    }

    /// The text with this in the line's place.
    fn put(&self, line: &[&[u8]]) -> Vec<u8> {
        [self.before, &line.concat(), self.after].concat()
    }

    /// The text with another value.
    fn with_value(&self, value: &[u8]) -> Vec<u8> {
        self.put(&[self.key, b"=", value])
    }

    /// The value as a number, as far as it is one.
    fn number(&self) -> u64 {
        let text = String::from_utf8_lossy(self.value);
        text.parse().unwrap_or(0)
    }
}

fn starts_line(text: &[u8], at: usize) -> bool {
    at == 0 || text[at - 1] == b'\n'
}

pub fn leading_zero(text: &[u8], source: &mut Splitmix) -> Vec<u8> {
    let line = Line::of(text, source);
    let zeros = source.pick(&["0", "0", "00", "0000000"]);
    line.with_value(&[zeros.as_bytes(), line.value].concat())
}

/// A value of eight digits, which begins as the old one or is the least of eight.
pub fn eighth_digit(text: &[u8], source: &mut Splitmix) -> Vec<u8> {
    let line = Line::of(text, source);
    let mut value = line.value.to_vec();
    if source.below(4) == 0 || value.first().is_none_or(|digit| *digit == b'0') {
        return line.with_value(b"10000000");
    }
    value.resize(8, b'0' + source.below(10) as u8);
    line.with_value(&value)
}

/// Values that wrap around 2^32 or 2^64 to the old one, or are longer than any number.
pub fn long(text: &[u8], source: &mut Splitmix) -> Vec<u8> {
    let line = Line::of(text, source);
    let number = u128::from(line.number());
    let value = match source.below(4) {
        0 => (number + (1 << 32)).to_string(),
        1 => (number + (1 << 64)).to_string(),
        2 => "9".repeat(9 + source.below(40) as usize),
        _ => format!("{number}{}", "0".repeat(20)),
    };
    line.with_value(value.as_bytes())
}

pub fn empty(text: &[u8], source: &mut Splitmix) -> Vec<u8> {
    Line::of(text, source).with_value(b"")
}

pub fn minus(text: &[u8], source: &mut Splitmix) -> Vec<u8> {
    let line = Line::of(text, source);
    line.with_value(&[b"-", line.value].concat())
}

pub fn plus(text: &[u8], source: &mut Splitmix) -> Vec<u8> {
    let line = Line::of(text, source);
    line.with_value(&[b"+", line.value].concat())
}

/// A space or a tab at either end of the line, or beside the sign of equality.
pub fn space(text: &[u8], source: &mut Splitmix) -> Vec<u8> {
    let line = Line::of(text, source);
    let (key, value) = (line.key, line.value);
    let space: &[u8] = source.pick(&[&b" "[..], b" ", b"\t", b"  "]);
    match source.below(4) {
        0 => line.put(&[space, key, b"=", value]),
        1 => line.put(&[key, space, b"=", value]),
        2 => line.put(&[key, b"=", space, value]),
        _ => line.put(&[key, b"=", value, space]),
    }
}

/// Numbers as other forms write them.
pub fn other_writing(text: &[u8], source: &mut Splitmix) -> Vec<u8> {
    let line = Line::of(text, source);
    let number = line.number();
    let writings = [
        format!("{number}.0"),
        format!("{number}."),
        format!("{number}e0"),
        format!("{number}u32"),
        format!("0x{number:x}"),
        format!("{number:x}h"),
        format!("{number}_"),
        format!("1,{number}"),
        format!("\"{number}\""),
        format!("{number};"),
        format!("{number} # a remark"),
        "NaN".to_string(),
        "-0".to_string(),
    ];
    line.with_value(writings[place(writings.len(), source)].as_bytes())
}

/// Another digit in a value: the text may stay of the form.
pub fn digit_changed(text: &[u8], source: &mut Splitmix) -> Vec<u8> {
    let line = Line::of(text, source);
    let mut value = line.value.to_vec();
    let at = place(value.len(), source);
    if let Some(digit) = value.get_mut(at) {
        *digit = b'0' + source.below(10) as u8;
    }
    line.with_value(&value)
}

pub fn one_more(text: &[u8], source: &mut Splitmix) -> Vec<u8> {
    let line = Line::of(text, source);
    line.with_value((line.number() + 1).to_string().as_bytes())
}

pub fn one_less(text: &[u8], source: &mut Splitmix) -> Vec<u8> {
    let line = Line::of(text, source);
    match line.number().checked_sub(1) {
        Some(number) => line.with_value(number.to_string().as_bytes()),
        None => line.with_value(b"-1"),
    }
}

/// A value on either side of a bound of some key.
pub fn at_bound(text: &[u8], source: &mut Splitmix) -> Vec<u8> {
    let line = Line::of(text, source);
    line.with_value(source.pick(&BOUNDS).to_string().as_bytes())
}

/// A letter of a key changed, dropped or doubled, a key of another line, or none.
pub fn misspelt(text: &[u8], source: &mut Splitmix) -> Vec<u8> {
    let line = Line::of(text, source);
    let mut key = line.key.to_vec();
    let at = place(key.len(), source);
    match source.below(6) {
        _ if key.is_empty() => (),
        0 => key[at] = b'a' + source.below(26) as u8,
        1 => drop(key.remove(at)),
        2 => key.insert(at, key[at]),
        3 => key.clear(),
        4 => key = Line::of(text, source).key.to_vec(),
        _ => key = key.iter().map(|byte| if *byte == b'_' { b'-' } else { *byte }).collect(),
    }
    line.put(&[&key, b"=", line.value])
}

pub fn capital(text: &[u8], source: &mut Splitmix) -> Vec<u8> {
    let line = Line::of(text, source);
    let mut key = line.key.to_vec();
    let anywhere = place(key.len(), source);
    let at = source.pick(&[0, anywhere]);
    if let Some(letter) = key.get_mut(at) {
        letter.make_ascii_uppercase();
    }
    line.put(&[&key, b"=", line.value])
}

pub fn equals(text: &[u8], source: &mut Splitmix) -> Vec<u8> {
    let line = Line::of(text, source);
    let signs = ["", "==", ":", ": ", " ", "=\n", "\n=", "=="];
    line.put(&[line.key, source.pick(&signs).as_bytes(), line.value])
}
