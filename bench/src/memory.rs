//! The peak memory of a process, as the system counts it: the pages that were in memory at once, but for those of the
//! program's own file and its libraries.

use std::{env, fmt, fs, hint::black_box, process::Command, str::FromStr};

/// Kilobytes in memory before some work, and the most of them until its end.
#[derive(Clone, Copy)]
pub struct Peak {
    pub before: u64,
    pub most: u64,
}

impl fmt::Display for Peak {
    fn fmt(&self, out: &mut fmt::Formatter) -> fmt::Result {
        write!(out, "{} {}", self.before, self.most)
    }
}

impl FromStr for Peak {
    type Err = String;

    fn from_str(text: &str) -> Result<Peak, String> {
        let wrong = || format!("{text:?} is no peak");
        let (before, most) = text.trim().split_once(' ').ok_or_else(wrong)?;
        let number = |text: &str| text.parse().map_err(|_| wrong());
        Ok(Peak { before: number(before)?, most: number(most)? })
    }
}

/// The peak of this process until the work on this input is done; what it gives is kept until then.
pub fn peak<I, T>(input: I, work: impl FnOnce(I) -> T) -> Peak {
    let before = kilobytes("VmRSS") - kilobytes("RssFile");
    let result = work(input);
    let most = kilobytes("VmHWM") - kilobytes("RssFile");
    black_box(&result);
    Peak { before, most }
}

/// A line of what the system says of this process.
fn kilobytes(name: &str) -> u64 {
    let status =
        fs::read_to_string("/proc/self/status").expect("the system's word on this process");
    let line = status.lines().find_map(|line| line.strip_prefix(name)?.strip_prefix(':'));
    let number = line.and_then(|line| line.split_whitespace().next()?.parse().ok());
    number.unwrap_or_else(|| panic!("no {name} of this process"))
}

/// What this program prints in a process of its own, run with these words.
pub fn of_process(words: &[&str]) -> Result<Peak, String> {
    let program = env::current_exe().map_err(|why| format!("this program: {why}"))?;
    let output = Command::new(program).args(words).output();
    let output = output.map_err(|why| format!("{}: {why}", words.join(" ")))?;
    if !output.status.success() {
        return Err(format!("{}: {}", words.join(" "), output.status));
    }
    String::from_utf8_lossy(&output.stdout).parse()
}
