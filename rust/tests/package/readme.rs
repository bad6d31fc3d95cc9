//! README's 'Use it from Rust' is examples/readme.rs, and that runs.

use std::{fs, path::Path};

/// The example as README has it: each line set in by four spaces.
#[test]
fn the_snippet_is_the_example() {
    let own = Path::new(env!("CARGO_MANIFEST_DIR"));
    let example = fs::read_to_string(own.join("examples/readme.rs")).expect("the example");
    let readme = fs::read_to_string(own.join("../README.md")).expect("README.md");
    assert!(example.lines().count() <= 12, "a short example");
    let snippet: String = example
        .lines()
        .map(|line| if line.is_empty() { "\n".to_string() } else { format!("    {line}\n") })
        .collect();
    assert!(readme.contains(&snippet), "README.md does not have examples/readme.rs as it is");
}

mod example {
    include!("../../examples/readme.rs");

    #[test]
    fn runs() {
        main().expect("nothing refused");
    }
}
