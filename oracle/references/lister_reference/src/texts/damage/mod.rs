//! Damage to a text, of many kinds. Some leave it of the form, with another meaning or the same.

mod bytes;
mod lines;
mod values;

use splitmix::Splitmix;

/// A damaged copy of a text.
pub type Damage = fn(&[u8], &mut Splitmix) -> Vec<u8>;

/// Every kind, with its name.
#[rustfmt::skip]
pub const DAMAGES: [(&str, Damage); 46] = [
    ("a byte changed", bytes::changed),
    ("a bit of a byte changed", bytes::bit_changed),
    ("a byte dropped", bytes::dropped),
    ("a byte doubled", bytes::doubled),
    ("a byte inserted", bytes::inserted),
    ("two bytes swapped", bytes::swapped),
    ("a byte past ASCII inserted", bytes::past_ascii),
    ("truncated", bytes::truncated),
    ("truncated at the front", bytes::beheaded),
    ("the last line feed missing", bytes::without_last),
    ("bytes at the end", bytes::trailing),
    ("bytes at the front", bytes::leading),
    ("nothing left", |_, _| Vec::new()),
    ("a line feed alone", |_, _| b"\n".to_vec()),
    ("written twice", |text, _| text.repeat(2)),
    ("65,536 bytes long", |text, source| bytes::padded(text, 65_536, source)),
    ("65,537 bytes long", |text, source| bytes::padded(text, 65_537, source)),
    ("a line dropped", lines::dropped),
    ("a line doubled", lines::doubled),
    ("two lines swapped", lines::swapped),
    ("two neighbouring lines swapped", lines::turned),
    ("a line moved", lines::moved),
    ("an empty line", lines::empty),
    ("two lines joined", lines::joined),
    ("a carriage return", lines::carriage_return),
    ("carriage returns at every end", lines::carriage_returns),
    ("a point more", lines::point_more),
    ("a point less", lines::point_less),
    ("an energy missing", lines::without_energy),
    ("an energy missing", lines::without_energy),
    ("energies elsewhere", lines::energies_elsewhere),
    ("a leading zero", values::leading_zero),
    ("an eighth digit", values::eighth_digit),
    ("nine digits or more", values::long),
    ("no value", values::empty),
    ("a minus", values::minus),
    ("a plus", values::plus),
    ("a space", values::space),
    ("a value of another writing", values::other_writing),
    ("a digit changed", values::digit_changed),
    ("one more", values::one_more),
    ("one less", values::one_less),
    ("a value at a bound", values::at_bound),
    ("a key misspelt", values::misspelt),
    ("a capital in a key", values::capital),
    ("the sign of equality damaged", values::equals),
];

/// A place in something so long.
fn place(length: usize, source: &mut Splitmix) -> usize {
    source.below(length.max(1) as u64) as usize
}

#[cfg(test)]
mod tests {
    use super::*;
    use crate::texts::example;

    /// No kind panics, not even on a text that it has nothing to damage of; and on an example each kind makes
    /// another text of it.
    #[test]
    fn every_kind_damages() {
        let text = example().text();
        for (name, damage) in DAMAGES {
            let mut source = Splitmix(7);
            for bare in [&b""[..], b"\n", b"=", b"x", b"x=\n\n", b"=1\n"] {
                damage(bare, &mut source);
            }
            let damaged = (0..20).filter(|_| damage(&text, &mut source) != text).count();
            assert!(damaged >= 10, "{name}: {damaged} of 20");
        }
    }

    #[test]
    fn padded_to_the_byte() {
        let text = example().text();
        for length in [65_536, 65_537] {
            for seed in 0..20 {
                assert_eq!(bytes::padded(&text, length, &mut Splitmix(seed)).len(), length);
            }
        }
    }
}
