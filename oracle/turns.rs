// Sine and cosine: near Rust's own for small angles, and the paper's steps to the bit everywhere.

use crate::library::{tl_cosine, tl_cosine_f32, tl_sine, tl_sine_f32};
use crate::patterns::{any_f32, any_f64, beside_f32, beside_f64, edges_f32, edges_f64, power};
use crate::plan::Plan;
use crate::report::{Bound, Check, Report};
use crate::rng::Rng;
use crate::steps;

/// How far the paper lets sine and cosine be from the Rust library's, and up to which |x|. Beyond
/// it the two part: the steps reduce by the f64 TAU, the library by the true turn.
const NEAR: Bound = Bound::Distance(1.0 / (1u64 << 44) as f64);
const REACH: f64 = 64.0;

pub fn compare(plan: &Plan, report: &mut Report) {
    near_the_library(plan, report);
    as_the_steps(plan, report);
    as_the_steps_f32(plan, report);
    remainder(plan, report);
}

fn near_the_library(plan: &Plan, report: &mut Report) {
    let mut sine = Check::of("sine", "|x| to 64, near Rust's", NEAR);
    let mut cosine = Check::of("cosine", "|x| to 64, near Rust's", NEAR);
    let mut put = |x: f64| {
        let (s, c) = (tl_sine(x), tl_cosine(x));
        sine.within(x, s, x.sin(), (s - x.sin()).abs());
        cosine.within(x, c, x.cos(), (c - x.cos()).abs());
    };
    edges_f64()
        .into_iter()
        .filter(|x| x.abs() <= REACH)
        .for_each(&mut put);
    let half = (plan.count / 8).max(1);
    for i in 0..=2 * half {
        put((i as f64 - half as f64) * (REACH / half as f64));
    }
    let mut rng = Rng::new(plan.seed, "near the library");
    for _ in 0..plan.count / 4 {
        put(rng.unit() * REACH);
    }
    report.end_of(sine);
    report.end_of(cosine);
}

fn as_the_steps(plan: &Plan, report: &mut Report) {
    let mut sine = Check::of("sine", "as the steps", Bound::Exact);
    let mut cosine = Check::of("cosine", "as the steps", Bound::Exact);
    let mut put = |x: f64| {
        sine.equal(x, tl_sine(x), steps::sine(x));
        cosine.equal(x, tl_cosine(x), steps::cosine(x));
    };
    edges_f64().into_iter().for_each(&mut put);
    let mut rng = Rng::new(plan.seed, "as the steps");
    for _ in 0..plan.count / 3 {
        put(angle(&mut rng));
    }
    report.end_of(sine);
    report.end_of(cosine);
}

fn angle(rng: &mut Rng) -> f64 {
    match rng.below(5) {
        0 => f64::from_bits(rng.next()),
        1 => any_f64(rng),
        2 => rng.unit() * REACH,
        // Beside an odd multiple of PI, of any size, where a turn is taken off or not.
        3 => {
            let k = (rng.next() >> rng.below(64)) | 1;
            beside_f64(k as f64 * steps::PI, rng.around(4)) * rng.pick(&[-1.0, 1.0])
        }
        // Inside, and near PI: the first steps of a series weigh most there, so a wrong divisor
        // shows.
        _ => {
            (steps::PI - rng.unit().abs() * power(-(rng.below(12) as i64))) * rng.pick(&[-1.0, 1.0])
        }
    }
}

fn as_the_steps_f32(plan: &Plan, report: &mut Report) {
    let mut sine = Check::of("sine_f32", "as the steps", Bound::Exact);
    let mut cosine = Check::of("cosine_f32", "as the steps", Bound::Exact);
    let mut put = |x: f32| {
        sine.equal(x, tl_sine_f32(x), steps::sine_f32(x));
        cosine.equal(x, tl_cosine_f32(x), steps::cosine_f32(x));
    };
    edges_f32().into_iter().for_each(&mut put);
    let mut rng = Rng::new(plan.seed, "as the steps, f32");
    for _ in 0..plan.count / 3 {
        put(match rng.below(3) {
            0 => any_f32(&mut rng),
            1 => (rng.unit() * REACH) as f32,
            _ => {
                let k = rng.next() >> rng.below(64);
                beside_f32((k as f64 * steps::PI / 2.0) as f32, rng.around(2))
                    * rng.pick(&[-1.0, 1.0])
            }
        });
    }
    report.end_of(sine);
    report.end_of(cosine);
}

/// The judge gets `%` from the platform's fmod, and the library works it out itself. So the
/// judge's remainder is held to one by whole numbers.
fn remainder(plan: &Plan, report: &mut Report) {
    let mut check = Check::new("x % TAU, by whole numbers", Bound::Exact);
    let mut put = |x: f64| check.equal(x, x % steps::TAU, whole_remainder(x));
    edges_f64().into_iter().for_each(&mut put);
    let mut rng = Rng::new(plan.seed, "remainder");
    for _ in 0..plan.count / 12 {
        put(angle(&mut rng));
    }
    report.end_of(check);
}

/// TAU is T * 2^-50, and |x| is m * 2^e. From e = -50 on, m * 2^(e + 50) is doubled up modulo T;
/// below it |x| is less than TAU and stays.
fn whole_remainder(x: f64) -> f64 {
    const T: u64 = 0x19_21FB_5444_2D18;
    if !x.is_finite() {
        return f64::NAN;
    }
    let e = (x.abs().to_bits() >> 52) as i64 - 1075;
    if e < -50 {
        return x;
    }
    let mut rest = ((x.to_bits() & ((1 << 52) - 1)) | (1 << 52)) % T;
    for _ in 0..e + 50 {
        rest *= 2;
        rest -= if rest >= T { T } else { 0 };
    }
    (rest as f64 * power(-50)).copysign(x)
}
