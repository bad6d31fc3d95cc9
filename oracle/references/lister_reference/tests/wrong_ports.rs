//! The comparison on a port that is right, and on ports that are wrong in one thing.

use lister_reference::{answer, answer_to, compared, read, texts::pairs};

/// A port: what it prints for a text.
type Port = fn(&[u8]) -> Vec<u8>;

fn right(text: &[u8]) -> Vec<u8> {
    answer_to(text).printed
}

/// The text as if these bytes were not there.
fn without(bytes: &[u8], text: &[u8]) -> Vec<u8> {
    text.iter().copied().filter(|byte| !bytes.contains(byte)).collect()
}

/// The text without zeros at the front of a value.
fn without_zeros(text: &[u8]) -> Vec<u8> {
    let text = String::from_utf8_lossy(text).into_owned();
    let line = |line: &str| match line.split_once('=') {
        Some((key, value)) if value.starts_with('0') && value.trim_end().len() > 1 => {
            let rest = value.trim_start_matches('0');
            format!("{key}={}{rest}", if rest == "\n" { "0" } else { "" })
        }
        _ => line.to_string(),
    };
    text.split_inclusive('\n').map(line).collect::<String>().into_bytes()
}

/// The text without its last three lines, where that is of the form.
fn without_point(text: &[u8]) -> Vec<u8> {
    let lines: Vec<&[u8]> = text.split_inclusive(|byte| *byte == b'\n').collect();
    let front = lines[..lines.len().saturating_sub(3)].concat();
    if read(&front).is_ok() {
        front
    } else {
        text.to_vec()
    }
}

/// The text with an energy of 0 after each y that has none.
fn with_energies(text: &[u8]) -> Vec<u8> {
    let lines: Vec<&[u8]> = text.split_inclusive(|byte| *byte == b'\n').collect();
    let mut copy = Vec::new();
    for (at, line) in lines.iter().enumerate() {
        copy.extend_from_slice(line);
        let next = lines.get(at + 1).copied().unwrap_or(b"");
        if line.starts_with(b"y=") && !next.starts_with(b"wh=") {
            copy.extend_from_slice(b"wh=0\n");
        }
    }
    copy
}

/// What is right, with something done to the fields of each line of the tables.
fn with_fields(text: &[u8], change: fn(&mut Vec<&str>)) -> Vec<u8> {
    let printed = String::from_utf8(right(text)).unwrap();
    let line = |line: &str| {
        let mut fields: Vec<&str> = line.split(' ').collect();
        if !line.starts_with("refusal") {
            change(&mut fields);
        }
        fields.join(" ") + "\n"
    };
    printed.lines().map(line).collect::<String>().into_bytes()
}

const WRONG: [(&str, Port); 23] = [
    ("takes carriage returns", |text| right(&without(b"\r", text))),
    ("takes spaces", |text| right(&without(b" \t", text))),
    ("takes a plus", |text| right(&without(b"+", text))),
    ("takes zero bytes", |text| right(&without(b"\0", text))),
    ("takes capitals", |text| right(&text.to_ascii_lowercase())),
    ("takes leading zeros", |text| right(&without_zeros(text))),
    ("takes a point more", |text| right(&without_point(text))),
    ("needs no last line feed", |text| match text.ends_with(b"\n") {
        true => right(text),
        false => right(&[text, b"\n"].concat()),
    }),
    ("takes no zero", |text| match text.windows(3).any(|part| part == b"=0\n") {
        true => b"refusal=12\n".to_vec(),
        false => right(text),
    }),
    ("takes no 1,152 points", |text| match read(text) {
        Ok(input) if input.points.len() == 1_152 => b"refusal=12\n".to_vec(),
        _ => right(text),
    }),
    ("prints no last line feed", |text| right(text).strip_suffix(b"\n").unwrap().to_vec()),
    ("prints a byte more", |text| [&right(text)[..], b"\n"].concat()),
    ("prints capital digits", |text| right(text).to_ascii_uppercase()),
    ("counts points from 1", |text| match read(text).map(|input| answer(&input)) {
        Ok(refused) if refused.number == 3 => {
            let printed = String::from_utf8(refused.printed).unwrap();
            let (front, at) = printed.trim_end().rsplit_once('=').unwrap();
            format!("{front}={}\n", at.parse::<u32>().unwrap() + 1).into_bytes()
        }
        _ => right(text),
    }),
    ("refuses 4 before 3", |text| match read(text) {
        Ok(input) if input.points.len() > 576 && answer(&input).number == 3 => {
            b"refusal=4\n".to_vec()
        }
        _ => right(text),
    }),
    ("needs no energies", |text| right(&with_energies(text))),
    ("prints no energy", |text| with_fields(text, |fields| _ = fields.pop())),
    ("prints num for the energy", |text| with_fields(text, |fields| fields[8] = fields[7])),
    ("prints the energy for num", |text| with_fields(text, |fields| fields[7] = fields[8])),
    ("prints the energy in front of num", |text| with_fields(text, |fields| fields.swap(7, 8))),
    ("reads an energy of 16 bits", |text| match read(text) {
        Ok(mut input) => {
            input.points.iter_mut().for_each(|point| point[2] %= 65_536);
            answer(&input).printed
        }
        Err(_) => right(text),
    }),
    ("takes eight digits of an energy", |text| {
        let text = String::from_utf8_lossy(text).into_owned();
        let line = |line: &str| match line.strip_prefix("wh=").map(str::trim_end) {
            Some(digits) if digits.len() == 8 => format!("wh={}\n", &digits[..7]),
            _ => line.to_string(),
        };
        right(&text.split_inclusive('\n').map(line).collect::<String>().into_bytes())
    }),
    ("refuses 2 before 1", |text| match read(text) {
        Ok(input) if input.points.is_empty() => b"refusal=2\n".to_vec(),
        _ => right(text),
    }),
];

fn differences(port: Port) -> usize {
    let texts = pairs(200, 1).flatten();
    texts.filter(|text| compared(&text.bytes, |text| Ok(port(text))).difference.is_some()).count()
}

#[test]
fn a_right_port_differs_nowhere() {
    assert_eq!(differences(right), 0);
}

#[test]
fn every_wrong_port_is_noticed() {
    for (name, port) in WRONG {
        assert_ne!(differences(port), 0, "a port that {name}");
    }
}

#[test]
fn a_port_that_says_nothing_is_noticed() {
    let said = compared(b"", |_| Err("ended".to_string())).difference;
    assert_eq!(said, Some(["an answer".to_string(), "ended".to_string()]));
}
