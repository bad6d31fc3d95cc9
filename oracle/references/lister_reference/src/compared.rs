//! A port of the lister beside what a text means by the scope's words alone.

use crate::answer_to;

/// How a port's answer to a text compares.
pub struct Compared {
    /// SCOPE's number of the answer that is expected, 0 where the tables are listed.
    pub number: u32,
    /// The first line that differs, as expected and as found.
    pub difference: Option<[String; 2]>,
}

/// Compares what a port prints for a text, or why it prints nothing.
pub fn compared(text: &[u8], port: impl FnOnce(&[u8]) -> Result<Vec<u8>, String>) -> Compared {
    let expected = answer_to(text);
    let difference = match port(text) {
        Ok(found) => first_difference(&expected.printed, &found),
        Err(why) => Some(["an answer".to_string(), why]),
    };
    Compared { number: expected.number, difference }
}

/// The first line that is not the same in both prints.
fn first_difference(expected: &[u8], found: &[u8]) -> Option<[String; 2]> {
    if expected == found {
        return None;
    }
    let [mut expected, mut found] =
        [expected, found].map(|text| text.split_inclusive(|byte| *byte == b'\n'));
    (0..).find_map(|number| {
        let lines = [expected.next(), found.next()];
        (lines[0] != lines[1]).then(|| lines.map(|line| shown(number, line)))
    })
}

/// A line with its number, from 0.
fn shown(number: usize, line: Option<&[u8]>) -> String {
    match line {
        Some(line) => format!("line {number}, {:?}", String::from_utf8_lossy(line)),
        None => format!("no line {number}"),
    }
}

#[cfg(test)]
mod tests {
    use super::*;

    #[test]
    fn differences() {
        assert_eq!(first_difference(b"a\nb\n", b"a\nb\n"), None);
        let [expected, found] = first_difference(b"a\nb\n", b"a\nc\n").unwrap();
        assert_eq!([&*expected, &*found], [r#"line 1, "b\n""#, r#"line 1, "c\n""#]);
        let [expected, found] = first_difference(b"a\n", b"a").unwrap();
        assert_eq!([&*expected, &*found], [r#"line 0, "a\n""#, r#"line 0, "a""#]);
        let [expected, found] = first_difference(b"a\n", b"").unwrap();
        assert_eq!([&*expected, &*found], [r#"line 0, "a\n""#, "no line 0"]);
    }
}
