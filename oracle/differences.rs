// docs/DIFFERENCES.md, run: at each entry's input the Rust does what the page says, and so does the
// library.
//
// What the Rust does is asked of the original itself, its panics included. What the library does is
// the number that stands here, and to the bit what the judge says.

mod filters;
mod levels;
mod streams;

use crate::call::{Call, Calls};
use crate::report::Report;
use std::panic::{catch_unwind, set_hook, take_hook, AssertUnwindSafe};

pub fn compare(report: &mut Report) {
    streams::compare(report);
    filters::compare(report);
    levels::compare(report);
}

/// An entry: whether the Rust does as the page says, and the number that the library answers.
fn entry(
    report: &mut Report,
    call: Call,
    place: &str,
    rust: bool,
    number: u32,
    put: impl FnOnce(&mut Calls),
) {
    let mut calls = Calls::new(call, &format!("difference: {place}"), &[number]);
    put(&mut calls);
    if !rust {
        calls.fail("the Rust does otherwise than docs/DIFFERENCES.md says");
    }
    calls.end(report);
}

/// Whether it does, with nothing of it printed.
fn panics<T>(run: impl FnOnce() -> T) -> bool {
    let told = take_hook();
    set_hook(Box::new(|_| {}));
    let ended = catch_unwind(AssertUnwindSafe(run)).is_err();
    set_hook(told);
    ended
}
