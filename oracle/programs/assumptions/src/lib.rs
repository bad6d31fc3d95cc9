//! A module in LLVM's text with its assumptions checked. In front of each operation that lets the compiler assume
//! something stands a check, which calls `@broken`; that ends the process where the assumption does not hold. The
//! assumptions themselves are left out. What is not known here is refused, so that no assumption goes through
//! without a check.
//!
//! The prover's module lets the compiler assume what is proved, such as that a sum does not overflow. If one of
//! these did not hold, the plain library could do anything, and the comparison might not see it. So
//! `tools/native-lib --checked exports` makes a library that checks, and `tools/compare` runs over it once more.
//!
//! | what may be assumed | what is checked |
//! |---|---|
//! | `nuw`, `nsw` of add, sub, mul | `llvm.*.with.overflow` of the same operands |
//! | `nuw`, `nsw` of trunc and shl | the value made wide again, or shifted back, is the operand |
//! | shift by as many bits as there are or more, division by zero | the second operand, where it is no constant |
//! | `!range` of a load | the value is in the range |
//! | `unreachable` | that it is not reached, unless a trap stands before it |
//! | `align` of a load or store | the low bits of the address |
//! | `inbounds nuw` of getelementptr | address and offset do not wrap around |
//! | memory that is read or written is there | the address sanitizer |
//! | `noundef` | by the fill: each slot of the stack begins with the byte a5 |
//!
//! What is read before it is written is then no truth value, which traps, or a wrong number, which the comparison
//! sees. The address sanitizer is that of the machine's cc; where cc has none it is left out, and `tools/compare`
//! says so. It sees the first byte past a lent column of the questions. It does not see the two entries behind an
//! output column, which are compared afterwards, nor the room behind the columns of `index` and `tables`; an access
//! that lands in another live object; or an address that is made outside and not used. Not checked: provenance, and
//! that the functions do not unwind, which they cannot.

mod checks;
mod heads;
mod instructions;

use checks::Checks;
use std::collections::{BTreeMap, BTreeSet};

/// A module with its checks, and how many there are of each kind.
pub struct Checked {
    pub text: String,
    pub counts: BTreeMap<&'static str, usize>,
}

/// Stands behind the module: a check that fails says of which line of the module it is, and traps.
const BROKEN: &str = r#"
@broken.text = private constant [52 x i8] c"line %d of the module: an assumption does not hold\0A\00"

declare i32 @dprintf(i32, ptr, ...)

define internal void @stop(i32 %line) cold noinline noreturn nounwind {
  call i32 (i32, ptr, ...) @dprintf(i32 2, ptr @broken.text, i32 %line)
  call void @llvm.trap()
  unreachable
}

define internal void @broken(i1 %is, i32 %line) alwaysinline nounwind {
  br i1 %is, label %stop, label %fine
stop:
  call void @stop(i32 %line)
  unreachable
fine:
  ret void
}
"#;

/// The module with its checks; otherwise the first line that is not known here.
pub fn checked(module: &str) -> Result<Checked, String> {
    let mut checks = Checks::new(ranges(module));
    let mut defined = BTreeSet::new();
    let (mut inside, mut before) = (false, "");
    for (number, line) in module.lines().enumerate() {
        let refused = |what: String| format!("line {}: {what}: {line}", number + 1);
        if line.starts_with("define ") {
            inside = true;
            checks.put(heads::define(line, &mut defined).map_err(refused)?);
        } else if line == "}" {
            inside = false;
            checks.put(line.to_string());
        } else if inside {
            checks.line = number + 1;
            instructions::check(line, before, &mut checks).map_err(refused)?;
        } else {
            checks.put(heads::attributes(line, &defined).map_err(refused)?);
        }
        before = line.trim();
    }
    checks.put(BROKEN.to_string());
    Ok(Checked { text: checks.text, counts: checks.counts })
}

/// The bounds that loads are marked with, by the mark: the type, the least value, and that past the greatest.
fn ranges(module: &str) -> BTreeMap<&str, [&str; 3]> {
    let bounds = |line| {
        let (mark, list): (&str, &str) = str::split_once(line, " = !{")?;
        let (low, high) = list.strip_suffix('}')?.split_once(", ")?;
        let ((of_low, low), (of_high, high)) = (low.split_once(' ')?, high.split_once(' ')?);
        (of_low == of_high && !high.contains(' ')).then_some((mark, [of_low, low, high]))
    };
    module.lines().filter(|line| line.starts_with('!')).filter_map(bounds).collect()
}
