//! Runs one question to the Rust; a panic becomes a short text, and prints nothing.

use std::{
    cell::Cell,
    hint::black_box,
    panic::{catch_unwind, set_hook, take_hook, AssertUnwindSafe},
};

thread_local! {
    static QUIET: Cell<bool> = const { Cell::new(false) };
}

/// From here on, a panic inside `attempt` prints nothing; any other prints as ever.
pub fn silence() {
    let ordinary = take_hook();
    set_hook(Box::new(move |info| {
        if !QUIET.get() {
            ordinary(info);
        }
    }));
}

/// What the question gave, or how it panicked.
pub fn attempt(question: impl FnOnce() -> String) -> String {
    QUIET.set(true);
    let outcome = catch_unwind(AssertUnwindSafe(question));
    QUIET.set(false);
    match outcome {
        Ok(text) => text,
        Err(payload) => {
            let message = payload
                .downcast_ref::<String>()
                .cloned()
                .or_else(|| payload.downcast_ref::<&str>().map(|text| text.to_string()));
            format!("panics ({})", kind(&message.unwrap_or_default()))
        }
    }
}

/// The kind of a panic by its message: the numbers in it differ from machine to machine.
fn kind(message: &str) -> &str {
    const KINDS: [(&str, &str); 2] =
        [("with overflow", "overflow"), ("index out of bounds", "index out of bounds")];
    let known = KINDS.iter().find(|(sign, _)| message.contains(sign));
    known.map_or(message, |(_, kind)| kind)
}

/// Whether this program was built with overflow checks; the Rust is built by the same profile.
pub fn overflow_checks() -> bool {
    attempt(|| (black_box(u8::MAX) + black_box(1)).to_string()) != "0"
}
