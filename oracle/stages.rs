// The library's stages, held to document 01's refusals and to the Rust original.
//
// The judge of a call is the paper's table in front and the original's own code behind it, with
// the paper's sine, cosine and arctangent. Every refusal, every number that is answered and every
// lent place is compared, those that must stay as they were included. `oracle/run.sh` builds and
// runs it.

mod call;
mod differences;
mod edges;
mod falsify;
mod original;
mod plan;
mod sample;
mod steps;

// Not every stage in the list below uses all of these.
#[allow(dead_code)]
mod feedback;
#[allow(dead_code)]
mod filters;
#[allow(dead_code)]
mod laws;
#[allow(dead_code)]
mod lent;
#[allow(dead_code, unused_macros, unused_imports)]
mod record;
#[allow(dead_code)]
mod refusals;
#[allow(dead_code)]
mod streams;
#[allow(dead_code)]
mod struck;
#[allow(dead_code)]
mod trials;

// The number work is compared with these too, and uses what is not used here.
#[allow(dead_code)]
mod check;
#[allow(dead_code)]
mod patterns;
#[allow(dead_code)]
mod plant;
#[allow(dead_code)]
mod report;
#[allow(dead_code)]
mod rng;
#[allow(dead_code)]
mod value;

use std::process::ExitCode;

/// A stage is a file of its name with its `CALLS` and a function `compare`; they run in this order.
macro_rules! stages {
    ($($stage:ident)+) => {
        $(mod $stage;)+
        fn calls() -> Vec<call::Call> {
            [$($stage::CALLS),+].concat()
        }
        fn compare(plan: &plan::Plan, report: &mut report::Report) {
            edges::compare(report);
            differences::compare(report);
            $($stage::compare(plan, report);)+
        }
    };
}

stages! {
    converter
    lowpass
    decimator
    dc_remover
    agc
    audio_agc
    fm
    am
    hilbert
    ssb
    nco
}

fn main() -> ExitCode {
    let program = plan::Program {
        plants: &falsify::PLANTS,
        calls: calls().iter().map(|call| (call.name, call.gives)).collect(),
        compare,
    };
    program.run()
}
