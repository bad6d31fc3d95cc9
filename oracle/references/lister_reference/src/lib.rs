//! The table lister, written from the words of the scope's section on it and of #108, and from nothing of the port:
//! which text is of its form, and what is printed for it. The tables are the patched Rust's, the energies sums over
//! the lamps that it lists, the refusals 1 to 4 those of the reference; seven digits never make a refusal by 15.
//! What this and the port get wrong in the same way, by reading the scope in the same way, it cannot show.
//!
//! The tests hold it to SCOPE's example; to 92 changes of it, to the order of the refusals and to both ends of a text,
//! judged by hand; to a second reading, made another way, and to the writer, on 30,860 texts; and try the comparison
//! on 23 ports that are wrong in one thing, each of which it notices. Of the 100,000 fresh texts of `tools/compare`,
//! 29,988 differed with a program that prints num for the energy, and 17,308 with one that takes energies up to
//! 9,999,998.

mod compared;
mod lines;
mod read;
pub mod texts;

pub use compared::{compared, Compared};
pub use lines::{answer, lines};
pub use read::{read, Input, NotOfItsForm};

/// SCOPE's example with the energies, and its tables: what the proved program is run on, and has to print.
pub const WORKED: &str = include_str!("../../../../crates/lister/stdin");
pub const WORKED_TABLES: &str = include_str!("../../../../crates/lister/stdout");

/// What the lister answers.
#[derive(Clone, Debug, PartialEq, Eq)]
pub struct Answer {
    /// SCOPE's number of the refusal, 0 where the tables are listed.
    pub number: u32,
    /// What is printed.
    pub printed: Vec<u8>,
}

/// What the lister answers to this text on its standard input.
pub fn answer_to(text: &[u8]) -> Answer {
    match read(text) {
        Ok(input) => answer(&input),
        Err(NotOfItsForm) => Answer { number: 12, printed: b"refusal=12\n".to_vec() },
    }
}
