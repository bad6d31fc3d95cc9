//! Test vectors for the table lister: texts, and what is printed for each. A case is a line of two words of 16
//! hexadecimal digits, how long the text is and how long what is printed; then both, byte for byte, with nothing
//! between them. There are 596 cases, 478,079 bytes: 186 texts whose tables are listed, and 94, 7, 29, 6 and 274
//! that are refused 1, 2, 3, 4 and 12.

use lister_reference::{
    answer_to,
    texts::{pairs, stored},
};
use std::io::{self, Write};

/// The seed of the fresh texts.
const SEED: u64 = 3;

/// Writes the stored cases.
pub fn write(out: &mut impl Write) -> io::Result<()> {
    stored().iter().try_for_each(|text| write_case(text, out))?;
    out.flush()
}

/// Writes so many fresh ones: texts in pairs, each as it was made and damaged, those at the bounds first.
pub fn write_fresh(count: usize, out: &mut impl Write) -> io::Result<()> {
    let mut texts = pairs(count, SEED).flatten().take(count);
    texts.try_for_each(|text| write_case(&text.bytes, out))?;
    out.flush()
}

fn write_case(text: &[u8], out: &mut impl Write) -> io::Result<()> {
    let printed = answer_to(text).printed;
    writeln!(out, "{:016x} {:016x}", text.len(), printed.len())?;
    out.write_all(text)?;
    out.write_all(&printed)
}
