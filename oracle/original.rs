// The Rust original, with document 01's steps where it calls the platform's library.
//
// `oracle/original.py` writes both modules when the comparison is built, and says there what it
// changes; their text is no part of this repository. They are built without debug assertions, as
// the original is when it is used: those of the conversions and of `Nco::mix` do not fire. What
// still panics are four `assert!`s (taps odd, twice; the cutoff; the factor) and an index past an
// odd length; a judge refuses such a call before it gets here.

// Not every call of it is one of the library's.
#[allow(dead_code)]
#[path = "../target/oracle/original/converter.rs"]
pub mod converter;
#[allow(dead_code)]
#[path = "../target/oracle/original/dsp.rs"]
pub mod dsp;

use crate::steps;

/// The three calls, under names that no float has yet: the patch changes a call's name and leaves
/// all else to the types.
pub trait Steps {
    fn step_sin(self) -> Self;
    fn step_cos(self) -> Self;
    fn step_atan2(self, x: Self) -> Self;
}

impl Steps for f32 {
    fn step_sin(self) -> f32 {
        steps::sine_f32(self)
    }
    fn step_cos(self) -> f32 {
        steps::cosine_f32(self)
    }
    fn step_atan2(self, x: f32) -> f32 {
        steps::arctangent_f32(self, x)
    }
}

impl Steps for f64 {
    fn step_sin(self) -> f64 {
        steps::sine(self)
    }
    fn step_cos(self) -> f64 {
        steps::cosine(self)
    }
    fn step_atan2(self, x: f64) -> f64 {
        steps::arctangent(self, x)
    }
}
