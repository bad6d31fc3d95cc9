//! The reader beside a second one, which takes the text apart by the standard library's means and looks at a
//! number only through its writing; and beside the writer.

use lister_reference::{
    answer_to, read,
    texts::{good, pairs, Draft, KINDS},
    Input,
};
use splitmix::Splitmix;

/// The number that this is the writing of.
fn number(text: &str, most: u64) -> Option<u64> {
    let number: u64 = text.parse().ok()?;
    (number.to_string() == text && number <= most).then_some(number)
}

/// The values of a text, where it is of the form.
fn second(bytes: &[u8]) -> Option<Draft> {
    let text = std::str::from_utf8(bytes).ok().filter(|text| text.len() <= 65_536)?;
    let lines: Vec<&str> = text.strip_suffix('\n')?.split('\n').collect();
    let pairs: Vec<(&str, &str)> =
        lines.iter().map(|line| line.split_once('=')).collect::<Option<_>>()?;
    let (options, points) = pairs.split_at_checked(7)?;
    let keys: Vec<&str> = options.iter().map(|(key, _)| *key).collect();
    if keys.join(" ") != "min_zoom max_zoom min_points radius extent node_size count" {
        return None;
    }
    let value = |at: usize, most| number(options[at].1, most);
    let count = value(6, 1_152)?;
    let keys = ["x", "y", "wh"].into_iter().cycle();
    let values = points.iter().zip(keys).map(|(pair, key)| {
        let digits = Some(pair.1).filter(|_| pair.0 == key)?;
        number(digits, 9_999_999)
    });
    let values: Vec<u64> = values.collect::<Option<_>>()?;
    let points: Vec<[u64; 3]> = values.chunks_exact(3).map(|p| [p[0], p[1], p[2]]).collect();
    (values.len() as u64 == 3 * count).then_some(())?;
    let options = [
        value(0, 255)?,
        value(1, 255)?,
        value(2, 255)?,
        value(3, 9_999_999)?,
        value(4, 9_999_999)?,
        value(5, 9_999_999)?,
    ];
    Some(Draft { options, count, points })
}

/// The values of an input.
fn draft(input: &Input) -> Draft {
    let small = [input.min_zoom, input.max_zoom, input.min_points].map(u64::from);
    let large = [input.radius, input.extent, input.node_size].map(u64::from);
    let options = [small[0], small[1], small[2], large[0], large[1], large[2]];
    Draft::new(options, input.points.iter().map(|point| point.map(u64::from)).collect())
}

/// Both readers take the same texts, and read the same values; what is taken is the writing of its values.
#[test]
fn both_read_the_same() {
    let (mut taken, mut refused) = (0, 0);
    for text in pairs(15_000, 11).flatten() {
        let first = read(&text.bytes).ok().map(|input| draft(&input));
        let second = second(&text.bytes);
        let written = [&first, &second].map(|draft| draft.as_ref().map(Draft::text));
        assert_eq!(written[0], written[1], "{}", text.what);
        match &written[0] {
            Some(written) => {
                taken += 1;
                assert_eq!(*written, text.bytes, "{}", text.what);
            }
            None => refused += 1,
        }
    }
    assert!(taken > 15_000 && refused > 7_000, "{taken} taken, {refused} refused");
}

/// Every text that is made to be of the form is taken, and every answer comes up among them.
#[test]
fn good_texts_are_taken() {
    let mut source = Splitmix(5);
    let mut seen = [0; 5];
    for number in 0..100 * KINDS {
        let draft = good(number, &mut source);
        let answer = answer_to(&draft.text());
        assert_ne!(answer.number, 12, "{}", draft.name());
        seen[answer.number as usize] += 1;
    }
    assert!(seen.iter().all(|count| *count >= 50), "{seen:?}");
}
