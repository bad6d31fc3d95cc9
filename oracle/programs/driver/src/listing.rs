//! The table lister by the scope's words alone: as a command, and as the judge of the proved program.

use crate::report::Report;
use lister_reference::{
    answer_to, compared,
    texts::{pairs, Text},
};
use std::{
    io::{self, Read, Write},
    process::{Command, ExitCode, Stdio},
};

/// Another seed than that of the comparison in one process.
const SEED: u64 = 2;

/// Lists the text on standard input.
pub fn list(out: &mut impl Write) -> io::Result<()> {
    let mut text = Vec::new();
    io::stdin().read_to_end(&mut text)?;
    out.write_all(&answer_to(&text).printed)?;
    out.flush()
}

/// Runs the program on texts in pairs, each as it was made and damaged: those at the bounds, and so many more.
pub fn judge(program: &str, more: usize) -> ExitCode {
    let mut report = Report::default();
    for Text { what, bytes, .. } in pairs(more, SEED).flatten() {
        let difference = compared(&bytes, |text| printed(program, text)).difference;
        let [expected, found] = difference.unwrap_or_default();
        report.compare(&what, &expected, &found);
    }
    report.finish("lister-program")
}

/// What the program prints for a text that it gets through a pipe; it is to end with status 0.
fn printed(program: &str, text: &[u8]) -> Result<Vec<u8>, String> {
    let mut command = Command::new(program);
    let run = command.stdin(Stdio::piped()).stdout(Stdio::piped()).spawn();
    let mut run = run.map_err(|why| format!("{program}: {why}"))?;
    // A program that has read enough may leave the rest.
    let _ = run.stdin.take().expect("a pipe").write_all(text);
    let output = run.wait_with_output().map_err(|why| why.to_string())?;
    match output.status.code() {
        Some(0) => Ok(output.stdout),
        _ => Err(output.status.to_string()),
    }
}
