// The C face of the library, as far as it is number work.
//
// No call has a precondition: every pattern of every argument is answered. So each may be called
// from safe code.

macro_rules! exported {
    ($($call:ident($($arg:ident: $from:ty),+) -> $to:ty;)+) => {
        mod symbols {
            #[link(name = "threshlantern", kind = "static")]
            extern "C" {
                $(pub fn $call($($arg: $from),+) -> $to;)+
            }
        }
        $(pub fn $call($($arg: $from),+) -> $to {
            unsafe { symbols::$call($($arg),+) }
        })+
        /// The names without `tl_`.
        pub fn calls() -> impl Iterator<Item = &'static str> {
            [$(stringify!($call)),+].into_iter().map(|name: &str| &name[3..])
        }
    };
}

exported! {
    tl_sqrt(x: f32) -> f32;
    tl_narrow(x: f64) -> f32;
    tl_narrow_alone(x: f64) -> f32;
    tl_widen(x: f32) -> f64;
    tl_whole(x: f32) -> usize;
    tl_magnitude_f32(x: f32) -> f32;
    tl_magnitude_f64(x: f64) -> f64;
    tl_finite_f32(x: f32) -> bool;
    tl_finite_f64(x: f64) -> bool;
    tl_sine(x: f64) -> f64;
    tl_cosine(x: f64) -> f64;
    tl_arctangent(y: f64, x: f64) -> f64;
    tl_sine_f32(x: f32) -> f32;
    tl_cosine_f32(x: f32) -> f32;
    tl_arctangent_f32(y: f32, x: f32) -> f32;
}
