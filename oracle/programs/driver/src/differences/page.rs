//! Reads the rows of docs/DIFFERENCES.md: a code and an input (`I4: expansion zoom of 3`), what the Rust does, and in
//! some tables what SCOPE says. Where overflow checks change what the Rust does, its cell has both outcomes:
//! `30; checked: panics (overflow)`. A cell without the mark is the outcome of both builds.

/// One row.
pub struct Row<'a> {
    pub code: &'a str,
    pub input: &'a str,
    /// What the Rust does in a release build.
    release: &'a str,
    /// What it does with overflow checks.
    checked: &'a str,
    scope: &'a str,
}

/// Which of its cells a build of the Rust is held to.
#[derive(Clone, Copy)]
pub enum Held {
    /// What the Rust does, by whether overflow is checked.
    ToTheRust,
    /// What SCOPE says: of a build that is patched to follow it.
    ToTheScope,
}

/// What stands between the two outcomes of a cell.
const CHECKED: &str = "; checked: ";

/// What stands for a cell of SCOPE's that is not on the page.
const NO_CELL: &str = "a cell of SCOPE's on the page";

/// What stands for a row that is not on the page.
pub const MISSING: Row = Row {
    code: "",
    input: "",
    release: "a row on the page",
    checked: "a row on the page",
    scope: "a row on the page",
};

impl Row<'_> {
    /// What the page says for a build with overflow checks or without.
    pub fn outcome(&self, held: Held, with_checks: bool) -> &str {
        match held {
            Held::ToTheScope => self.scope,
            Held::ToTheRust if with_checks => self.checked,
            Held::ToTheRust => self.release,
        }
    }
}

/// The rows, in their order.
pub fn rows(page: &str) -> Vec<Row<'_>> {
    page.lines().filter_map(row).collect()
}

/// A line of two or three cells whose first begins with a letter and a number, and a colon behind them.
fn row(line: &str) -> Option<Row<'_>> {
    let cells: Vec<&str> = line.split('|').map(str::trim).collect();
    let (named, rust, scope) = match cells[..] {
        ["", named, rust, ""] => (named, rust, NO_CELL),
        ["", named, rust, scope, ""] => (named, rust, scope),
        _ => return None,
    };
    let (code, input) = named.split_once(": ")?;
    let number = code.strip_prefix(|letter: char| letter.is_ascii_uppercase())?;
    number.parse::<u8>().ok()?;
    let (release, checked) = rust.split_once(CHECKED).unwrap_or((rust, rust));
    Some(Row { code, input, release, checked, scope })
}
