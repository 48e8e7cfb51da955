// The Rust original as it is, with the platform's sine, cosine and arctangent.
//
// `oracle/original.py` writes both modules and puts names of a trait's where they call the platform's library; here the
// trait hands those calls back to it.

#[allow(dead_code)]
#[path = "../target/oracle/original/converter.rs"]
pub mod converter;
#[allow(dead_code)]
#[path = "../target/oracle/original/dsp.rs"]
pub mod dsp;

pub trait Steps {
    fn step_sin(self) -> Self;
    fn step_cos(self) -> Self;
    fn step_atan2(self, x: Self) -> Self;
}

macro_rules! platform {
    ($($float:ident)+) => {
        $(impl Steps for $float {
            #[inline(always)]
            fn step_sin(self) -> $float {
                self.sin()
            }
            #[inline(always)]
            fn step_cos(self) -> $float {
                self.cos()
            }
            #[inline(always)]
            fn step_atan2(self, x: $float) -> $float {
                self.atan2(x)
            }
        })+
    };
}

platform! { f32 f64 }
