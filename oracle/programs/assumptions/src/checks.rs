//! The text with its checks, as it is written.

use std::collections::BTreeMap;

pub struct Checks<'a> {
    pub text: String,
    pub counts: BTreeMap<&'static str, usize>,
    /// The line of the module that is looked at.
    pub line: usize,
    ranges: BTreeMap<&'a str, [&'a str; 3]>,
    made: usize,
}

impl<'a> Checks<'a> {
    pub fn new(ranges: BTreeMap<&'a str, [&'a str; 3]>) -> Checks<'a> {
        Checks { text: String::new(), counts: BTreeMap::new(), line: 0, ranges, made: 0 }
    }

    /// Writes a line.
    pub fn put(&mut self, line: String) {
        self.text.push_str(&line);
        self.text.push('\n');
    }

    /// Counts a check of this kind, and gives it a name.
    fn named(&mut self, kind: &'static str) -> String {
        *self.counts.entry(kind).or_default() += 1;
        self.made += 1;
        format!("%check.{}", self.made)
    }

    /// The call that ends the process where this is true.
    fn end(&mut self, name: &str) {
        self.put(format!("  call void @broken(i1 {name}, i32 {})", self.line));
    }

    /// That a sum, difference or product has room: `letter` is u for nuw and s for nsw.
    pub fn overflow(&mut self, kind: &'static str, letter: char, [op, of, a, b]: [&str; 4]) {
        let name = self.named(kind);
        self.put(format!(
            "  {name}.both = call {{ {of}, i1 }} @llvm.{letter}{op}.with.overflow.{of}({of} {a}, {of} {b})"
        ));
        self.put(format!("  {name} = extractvalue {{ {of}, i1 }} {name}.both, 1"));
        self.end(&name);
    }

    /// That a value that was cut off is the whole one: `wide` is zext or sext.
    pub fn trunc(&mut self, wide: &str, [of, value, to]: [&str; 3]) {
        let name = self.named(if wide == "zext" { "trunc nuw" } else { "trunc nsw" });
        self.put(format!("  {name}.cut = trunc {of} {value} to {to}"));
        self.put(format!("  {name}.back = {wide} {to} {name}.cut to {of}"));
        self.put(format!("  {name} = icmp ne {of} {name}.back, {value}"));
        self.end(&name);
    }

    /// That a shift loses nothing: `back` is lshr for nuw and ashr for nsw.
    pub fn shl(&mut self, back: &str, [of, a, b]: [&str; 3]) {
        let name = self.named(if back == "lshr" { "shl nuw" } else { "shl nsw" });
        self.put(format!("  {name}.shifted = shl {of} {a}, {b}"));
        self.put(format!("  {name}.back = {back} {of} {name}.shifted, {b}"));
        self.put(format!("  {name} = icmp ne {of} {name}.back, {a}"));
        self.end(&name);
    }

    /// That a value does not compare so with another.
    pub fn compare(&mut self, kind: &'static str, how: &str, [of, a, b]: [&str; 3]) {
        let name = self.named(kind);
        self.put(format!("  {name} = icmp {how} {of} {a}, {b}"));
        self.end(&name);
    }

    /// That an address and an offset added to it do not wrap around.
    pub fn address(&mut self, [at, offset]: [&str; 2]) {
        let name = self.named("getelementptr inbounds nuw: no wrap around");
        self.put(format!("  {name}.at = ptrtoint ptr {at} to i64"));
        self.put(format!(
            "  {name}.both = call {{ i64, i1 }} @llvm.uadd.with.overflow.i64(i64 {name}.at, i64 {offset})"
        ));
        self.put(format!("  {name} = extractvalue {{ i64, i1 }} {name}.both, 1"));
        self.end(&name);
    }

    /// That an address is aligned.
    pub fn aligned(&mut self, at: &str, align: u64) {
        let name = self.named("align of a load or store");
        self.put(format!("  {name}.at = ptrtoint ptr {at} to i64"));
        self.put(format!("  {name}.low = and i64 {name}.at, {}", align - 1));
        self.put(format!("  {name} = icmp ne i64 {name}.low, 0"));
        self.end(&name);
    }

    /// That a loaded value is in the range that the mark names.
    pub fn range(&mut self, mark: &str, value: &str) -> Result<(), String> {
        let [of, low, high] = *self.ranges.get(mark).ok_or("a range that is not known")?;
        let bound = |text: &str| text.parse::<i128>().map_err(|error| error.to_string());
        let width = bound(high)? - bound(low)?;
        if width <= 0 {
            return Err("a range that wraps around".to_string());
        }
        let name = self.named("!range");
        self.put(format!("  {name}.above = sub {of} {value}, {low}"));
        self.put(format!("  {name} = icmp uge {of} {name}.above, {width}"));
        self.end(&name);
        Ok(())
    }

    /// That this is not reached.
    pub fn unreachable(&mut self) {
        *self.counts.entry("unreachable").or_default() += 1;
        self.end("true");
    }

    /// That what is loaded was written: there is no check of its own, only the filling of the slots.
    pub fn noundef(&mut self) {
        *self.counts.entry("!noundef").or_default() += 1;
    }

    /// Fills a new slot of the stack with a pattern, so that what is read before it is written is seen.
    pub fn fill(&mut self, slot: &str, of: &str) {
        *self.counts.entry("alloca filled").or_default() += 1;
        let size = format!("ptrtoint (ptr getelementptr ({of}, ptr null, i32 1) to i64)");
        self.put(format!(
            "  call void @llvm.memset.p0.i64(ptr {slot}, i8 -91, i64 {size}, i1 false)"
        ));
    }
}
