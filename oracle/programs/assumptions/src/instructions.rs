//! One line of a function: which assumptions it has, and the line without them.

use crate::checks::Checks;

type Outcome = Result<(), String>;

/// Operations that assume nothing, as long as none of `FLAGS` is there.
const PLAIN: [&str; 20] = [
    "and", "or", "xor", "icmp", "fcmp", "fadd", "fsub", "fmul", "fdiv", "frem", "fneg", "zext",
    "sext", "bitcast", "uitofp", "sitofp", "br", "switch", "ret", "phi",
];

/// LLVM's own functions that may be called. They assume nothing that the address sanitizer does not see. The fence
/// gives its argument back: it keeps the compiler from joining the rounded steps on its two sides.
const OWN: [&str; 4] = [
    "@llvm.memmove.p0.p0.i64(",
    "@llvm.memset.p0.i64(",
    "@llvm.trap(",
    "@llvm.arithmetic.fence.f64(",
];

/// Words by which an operation or an argument lets the compiler assume more than its value.
const FLAGS: [&str; 24] = [
    "nuw", "nsw", "nusw", "exact", "disjoint", "nneg", "samesign", "inbounds", "inrange", "fast",
    "nnan", "ninf", "nsz", "arcp", "contract", "afn", "reassoc", "noundef", "nonnull", "noalias",
    "align", "volatile", "undef", "poison",
];

/// Writes the line with its checks; `before` is the line in front of it.
pub fn check(line: &str, before: &str, checks: &mut Checks) -> Outcome {
    let text = line.trim();
    let (result, operation) = match text.split_once(" = ") {
        Some((result, operation)) if result.starts_with('%') => (result, operation),
        _ => ("", text),
    };
    let (opcode, words) = operation.split_once(' ').unwrap_or((operation, ""));
    match opcode {
        "add" | "sub" | "mul" => arithmetic(result, opcode, words, checks),
        "shl" | "lshr" | "ashr" => shift(result, opcode, words, checks),
        "udiv" | "urem" => division(result, opcode, words, checks),
        "trunc" => trunc(result, words, checks),
        "getelementptr" => element(result, words, checks),
        "load" => load(result, words, checks),
        "store" => store(words, checks),
        "alloca" => alloca(line, result, words, checks),
        "call" => call(line, checks),
        "extractvalue" => plain(line, checks),
        "unreachable" => {
            if before != "call void @llvm.trap()" {
                checks.unreachable();
            }
            checks.put(line.to_string());
            Ok(())
        }
        _ if PLAIN.contains(&opcode) || is_no_operation(text) => plain(line, checks),
        _ => Err(format!("the operation {opcode}")),
    }
}

/// A label, an arm of a switch, the end of one, an empty line.
fn is_no_operation(text: &str) -> bool {
    let code = text.split(';').next().unwrap_or("").trim();
    let label = code.strip_suffix(':').is_some_and(|name| !name.contains(' '));
    let arm = code.starts_with('i') && code.contains(", label %") && !code.contains('=');
    label || arm || code.is_empty() || code == "]"
}

/// A line that goes through as it is.
fn plain(line: &str, checks: &mut Checks) -> Outcome {
    assumes_nothing(line)?;
    checks.put(line.to_string());
    Ok(())
}

/// Whether none of `FLAGS` and no mark is there.
fn assumes_nothing(line: &str) -> Outcome {
    let code = line.split(';').next().unwrap_or("");
    let mut words = code.split([' ', ',', '(', ')']);
    match words.find(|word| FLAGS.contains(word) || word.starts_with(['!', '#'])) {
        Some(word) => Err(format!("the word {word}")),
        None => Ok(()),
    }
}

/// The words without the flags `nuw` and `nsw`, and which of them were there.
fn flags(words: &str) -> (bool, bool, &str) {
    let (nuw, words) = words.strip_prefix("nuw ").map_or((false, words), |words| (true, words));
    let (nsw, words) = words.strip_prefix("nsw ").map_or((false, words), |words| (true, words));
    (nuw, nsw, words)
}

/// A type and two operands: `i64 %a, %b`.
fn operands(words: &str) -> Result<[&str; 3], String> {
    let (of, both) = words.split_once(' ').ok_or("no operands")?;
    let (a, b) = both.split_once(", ").ok_or("one operand")?;
    match of.starts_with('i') && !a.contains(' ') && !b.contains(' ') {
        true => Ok([of, a, b]),
        false => Err("not of the form: type, operand, operand".to_string()),
    }
}

fn arithmetic(result: &str, opcode: &str, words: &str, checks: &mut Checks) -> Outcome {
    let (nuw, nsw, words) = flags(words);
    let [of, a, b] = operands(words)?;
    let (unsigned, signed) = match opcode {
        "add" => ("add nuw", "add nsw"),
        "sub" => ("sub nuw", "sub nsw"),
        _ => ("mul nuw", "mul nsw"),
    };
    if nuw {
        checks.overflow(unsigned, 'u', [opcode, of, a, b]);
    }
    if nsw {
        checks.overflow(signed, 's', [opcode, of, a, b]);
    }
    plain(&format!("  {result} = {opcode} {words}"), checks)
}

/// A shift also has to be by fewer bits than there are.
fn shift(result: &str, opcode: &str, words: &str, checks: &mut Checks) -> Outcome {
    let (nuw, nsw, words) = flags(words);
    let [of, a, b] = operands(words)?;
    let width: u64 = of[1..].parse().map_err(|_| "no width")?;
    if !b.parse().is_ok_and(|by: u64| by < width) {
        checks.compare("shift by fewer bits than there are", "uge", [of, b, &of[1..]]);
    }
    if nuw {
        checks.shl("lshr", [of, a, b]);
    }
    if nsw {
        checks.shl("ashr", [of, a, b]);
    }
    plain(&format!("  {result} = {opcode} {words}"), checks)
}

fn division(result: &str, opcode: &str, words: &str, checks: &mut Checks) -> Outcome {
    let [of, _, b] = operands(words)?;
    if !b.parse().is_ok_and(|by: u64| by > 0) {
        checks.compare("division by other than zero", "eq", [of, b, "0"]);
    }
    plain(&format!("  {result} = {opcode} {words}"), checks)
}

fn trunc(result: &str, words: &str, checks: &mut Checks) -> Outcome {
    let (nuw, nsw, words) = flags(words);
    let (from, to) = words.split_once(" to ").ok_or("no type")?;
    let (of, value) = from.split_once(' ').ok_or("no value")?;
    if nuw {
        checks.trunc("zext", [of, value, to]);
    }
    if nsw {
        checks.trunc("sext", [of, value, to]);
    }
    plain(&format!("  {result} = trunc {words}"), checks)
}

/// The address of a byte. Whether it lies in what its pointer points into is the sanitizer's to see, once
/// something is read or written there.
fn element(result: &str, words: &str, checks: &mut Checks) -> Outcome {
    let bare = words.strip_prefix("inbounds nuw ").unwrap_or(words);
    let (at, offset) = bare
        .strip_prefix("i8, ptr ")
        .and_then(|bare| bare.split_once(", i64 "))
        .ok_or("not of the form: i8, pointer, offset")?;
    if bare != words {
        checks.address([at, offset]);
    }
    plain(&format!("  {result} = getelementptr {bare}"), checks)
}

/// A load or store, of this and at this address: its alignment is checked, and named all the same, since what
/// is not aligned does not come so far. Hands back the marks behind it.
fn access<'a>(start: &str, words: &'a str, checks: &mut Checks) -> Result<&'a str, String> {
    // The last one is the address: a type before it may have a pointer among its fields.
    let (what, to) = words.rsplit_once(", ptr ").ok_or("no pointer")?;
    let (at, align) = to.split_once(", align ").ok_or("no alignment")?;
    let (align, marks) = alignment(align)?;
    assumes_nothing(&format!("{what}, {at}"))?;
    if align > 1 {
        checks.aligned(at, align);
    }
    checks.put(format!("  {start} {what}, ptr {at}, align {align}"));
    Ok(marks)
}

/// The alignment, and the marks behind it.
fn alignment(words: &str) -> Result<(u64, &str), String> {
    let (align, marks) = words.split_once(", ").unwrap_or((words, ""));
    Ok((align.parse().map_err(|_| "no alignment")?, marks))
}

fn load(result: &str, words: &str, checks: &mut Checks) -> Outcome {
    let marks = access(&format!("{result} = load"), words, checks)?;
    for mark in marks.split(", ").filter(|mark| !mark.is_empty()) {
        match mark.split_once(' ') {
            Some(("!range", range)) => checks.range(range, result)?,
            Some(("!noundef", _)) => checks.noundef(),
            _ => return Err(format!("the mark {mark}")),
        }
    }
    Ok(())
}

fn store(words: &str, checks: &mut Checks) -> Outcome {
    match access("store", words, checks)? {
        "" => Ok(()),
        marks => Err(format!("the mark {marks}")),
    }
}

fn call(line: &str, checks: &mut Checks) -> Outcome {
    match line.contains("@llvm.") && !OWN.iter().any(|own| line.contains(own)) {
        true => Err("a function of LLVM's own".to_string()),
        false => plain(line, checks),
    }
}

fn alloca(line: &str, result: &str, words: &str, checks: &mut Checks) -> Outcome {
    let (of, align) = words.split_once(", align ").ok_or("no alignment")?;
    let (_, marks) = alignment(align)?;
    if of.contains(", ") || !marks.is_empty() {
        return Err("not of the form: type, alignment".to_string());
    }
    checks.put(line.to_string());
    checks.fill(result, of);
    Ok(())
}
