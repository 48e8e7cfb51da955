// The library's number work, held to IEEE 754, to Rust's own calls and to document 01's steps.
//
// The library is proved, so this looks for what a proof does not see: a definition that does not
// say what the paper says, a wrong C face, a compiler that rounds otherwise. `oracle/run.sh` builds
// and runs it.

mod arctangents;
mod kinds;
mod library;
mod narrowing;
mod roots;
mod turns;

mod plan;
mod sample;
mod steps;

// The stages are compared with these too, and use what is not used here.
#[allow(dead_code)]
mod check;
#[allow(dead_code)]
mod patterns;
#[allow(dead_code)]
mod plant;
#[allow(dead_code)]
mod refusals;
#[allow(dead_code)]
mod report;
#[allow(dead_code)]
mod rng;
#[allow(dead_code)]
mod value;

use plant::Plant;
use std::process::ExitCode;

/// Nothing is refused.
const NUMBERS: &[u32] = &[refusals::NONE];

fn compare(plan: &plan::Plan, report: &mut report::Report) {
    roots::compare(plan, report);
    narrowing::compare(plan, report);
    turns::compare(plan, report);
    arctangents::compare(plan, report);
    kinds::compare(plan, report);
}

fn main() -> ExitCode {
    let program = plan::Program {
        plants: &[Plant::LastBit, Plant::TooFar],
        calls: library::calls().map(|call| (call, NUMBERS)).collect(),
        compare,
    };
    program.run()
}
