//! Runs one case in a process of its own, so that one that loops, fills the memory or ends its
//! process does no harm.

use std::{
    env,
    io::Read,
    process::{Child, Command, ExitStatus, Stdio},
    thread::sleep,
    time::{Duration, Instant},
};

/// The longest that a case may run.
const LIMIT: Duration = Duration::from_secs(20);

/// Runs this program again with at most 4 GiB of memory; where the limit is lower already it stays.
const SHELL: &str = "ulimit -v 4194304 2>/dev/null; exec \"$0\" case \"$1\" \"$2\"";

/// The outcome of a case, as the other process prints it, or how that process ended.
pub fn run(code: &str, build: &str) -> String {
    let program = env::current_exe().expect("this program's path");
    let mut child = Command::new("sh")
        .args(["-c", SHELL])
        .arg(program)
        .args([code, build])
        .stdin(Stdio::null())
        .stdout(Stdio::piped())
        .stderr(Stdio::piped())
        .spawn()
        .expect("a process of its own");
    let Some(status) = wait(&mut child) else {
        child.kill().and_then(|()| child.wait()).expect("its end");
        return "runs for more than 20 seconds".to_string();
    };
    outcome(&mut child, status)
}

/// How the process ended, or nothing when its time was up.
fn wait(child: &mut Child) -> Option<ExitStatus> {
    let start = Instant::now();
    while start.elapsed() < LIMIT {
        if let Some(status) = child.try_wait().expect("its state") {
            return Some(status);
        }
        sleep(Duration::from_millis(5));
    }
    None
}

/// What it printed, both ways short enough to wait in its pipe.
fn outcome(child: &mut Child, status: ExitStatus) -> String {
    let out = read(child.stdout.take());
    let err = read(child.stderr.take());
    if status.success() {
        out.trim_end().to_string()
    } else if err.contains("overflowed its stack") {
        "overflows its stack".to_string()
    } else {
        format!("ends with {status}: {}", err.trim_end())
    }
}

fn read(pipe: Option<impl Read>) -> String {
    let mut text = String::new();
    let mut pipe = pipe.expect("a pipe");
    pipe.read_to_string(&mut text).expect("plain text");
    text
}
