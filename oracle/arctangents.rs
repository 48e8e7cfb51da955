// The arctangent: near Rust's own in f32 steps, and the paper's steps to the bit for every pair.

use crate::library::{tl_arctangent, tl_arctangent_f32};
use crate::patterns::{any_f32, any_f64, beside_f32, beside_f64, edges_f32, edges_f64, power};
use crate::plan::Plan;
use crate::report::{Bound, Check, Report};
use crate::rng::Rng;
use crate::steps;
use crate::value::steps_apart;

/// How far the paper lets the arctangent be from the Rust library's.
const NEAR: Bound = Bound::Steps(2);

pub fn compare(plan: &Plan, report: &mut Report) {
    singles(plan, report);
    doubles(plan, report);
}

fn singles(plan: &Plan, report: &mut Report) {
    let mut right = Check::of("arctangent_f32", "near the right f32", NEAR);
    let mut rust = Check::of("arctangent_f32", "near f32::atan2", NEAR);
    let mut same = Check::of("arctangent_f32", "as the steps", Bound::Exact);
    let mut put = |y: f32, x: f32| {
        let a = tl_arctangent_f32(y, x);
        // The f64 answer narrowed is the nearest f32 but for a handful of pairs, and so the same on
        // every platform. `f32::atan2` is what the original calls, but platforms differ in it by a
        // step, and that step would be taken from the two: it has a check of its own.
        let reference = f64::from(y).atan2(f64::from(x)) as f32;
        right.within((y, x), a, reference, steps_apart(a, reference));
        rust.within((y, x), a, y.atan2(x), steps_apart(a, y.atan2(x)));
        same.equal((y, x), a, steps::arctangent_f32(y, x));
    };
    let edges = edges_f32();
    for &y in &edges {
        for &x in &edges {
            put(y, x);
        }
    }
    let mut rng = Rng::new(plan.seed, "arctangent of f32");
    for _ in 0..plan.count / 3 {
        let (y, x) = pair_f32(&mut rng, &edges);
        put(y, x);
    }
    report.end_of(right);
    report.end_of(rust);
    report.end_of(same);
}

fn doubles(plan: &Plan, report: &mut Report) {
    let mut right = Check::of("arctangent", "narrowed, near f64::atan2", NEAR);
    let mut same = Check::of("arctangent", "as the steps", Bound::Exact);
    let mut put = |y: f64, x: f64| {
        let a = tl_arctangent(y, x);
        right.within(
            (y, x),
            a,
            y.atan2(x),
            steps_apart(a as f32, y.atan2(x) as f32),
        );
        same.equal((y, x), a, steps::arctangent(y, x));
    };
    let edges = edges_f64();
    for &y in &edges {
        for &x in &edges {
            put(y, x);
        }
    }
    let mut rng = Rng::new(plan.seed, "arctangent");
    for _ in 0..plan.count / 3 {
        let (y, x) = pair_f64(&mut rng, &edges);
        put(y, x);
    }
    report.end_of(right);
    report.end_of(same);
}

/// Two f32 of any class, two of about one size (far apart, the angle is all but on an axis), one
/// beside an edge, two that are equal or nearly so.
fn pair_f32(rng: &mut Rng, edges: &[f32]) -> (f32, f32) {
    let one = any_f32(rng);
    let other = match rng.below(4) {
        0 => any_f32(rng),
        1 => (f64::from(one) * rng.unit()) as f32,
        2 => rng.pick(edges),
        _ => beside_f32(one, rng.around(2)) * rng.pick(&[-1.0, 1.0]),
    };
    if rng.coin() {
        (one, other)
    } else {
        (other, one)
    }
}

/// The same of f64, and two whose quotient is at the bound or near it. There |u| is largest, so
/// every 1/k weighs most, and one step of q decides between the two bases.
fn pair_f64(rng: &mut Rng, edges: &[f64]) -> (f64, f64) {
    let one = if rng.coin() { any_f64(rng) } else { rng.unit() };
    let sign = rng.pick(&[-1.0, 1.0]);
    let other = match rng.below(7) {
        0 => any_f64(rng),
        1 => one * rng.unit(),
        2 => rng.pick(edges),
        3 => beside_f64(one, rng.around(2)) * sign,
        4 => beside_f64(one * steps::BOUND, rng.around(2)) * sign,
        5 => one * (steps::BOUND + rng.unit() * power(-7)),
        // A quotient that is the bound itself, its neighbour, or 1, at any scale.
        _ => return at_the_bound(rng),
    };
    if rng.coin() {
        (one, other)
    } else {
        (other, one)
    }
}

fn at_the_bound(rng: &mut Rng) -> (f64, f64) {
    let scale = power(rng.around(1000)) * rng.pick(&[-1.0, 1.0]);
    let q = beside_f64(rng.pick(&[steps::BOUND, 1.0]), rng.around(2)) * rng.pick(&[-1.0, 1.0]);
    if rng.coin() {
        (q * scale, scale)
    } else {
        (scale, q * scale)
    }
}
