// Both narrowings of the library against Rust's `as f32`: to the nearest, a tie to the even one.

use crate::library::{tl_narrow, tl_narrow_alone};
use crate::patterns::{any_f64, beside_f64, edges_f64, power};
use crate::plan::Plan;
use crate::report::{Bound, Check, Report};
use crate::rng::Rng;

/// The two share their contract and not their code, so each is a check of its own over the same
/// inputs.
struct Both {
    plain: Check,
    alone: Check,
}

impl Both {
    fn new(inputs: &str) -> Both {
        Both {
            plain: Check::of("narrow", inputs, Bound::Exact),
            alone: Check::of("narrow_alone", inputs, Bound::Exact),
        }
    }

    #[inline]
    fn put(&mut self, x: f64) {
        self.plain.equal(x, tl_narrow(x), x as f32);
        self.alone.equal(x, tl_narrow_alone(x), x as f32);
    }

    fn end(self, report: &mut Report) {
        report.end_of(self.plain);
        report.end_of(self.alone);
    }
}

pub fn compare(plan: &Plan, report: &mut Report) {
    let mut both = Both::new("edges");
    edges_f64().into_iter().for_each(|x| both.put(x));
    // At both ends of every binade, where a rounding may carry into the exponent, and the
    // subnormals' ends with them.
    for top in 0..=0xFEu32 {
        for digits in [
            0, 1, 2, 3, 0x3F_FFFF, 0x40_0000, 0x7F_FFFD, 0x7F_FFFE, 0x7F_FFFF,
        ] {
            for by in -2..=2 {
                let x = beside_f64(middle(top << 23 | digits), by);
                both.put(x);
                both.put(-x);
            }
        }
    }
    both.end(report);

    let mut rng = Rng::new(plan.seed, "narrowing");
    let mut both = Both::new("random");
    for _ in 0..plan.count {
        both.put(random(&mut rng));
    }
    both.end(report);

    if plan.all {
        let mut both = Both::new("every f32 and middle");
        for pattern in 0..0x7F80_0000 {
            let x = middle(pattern);
            both.put(f64::from(f32::from_bits(pattern)));
            both.put(x);
            both.put(-beside_f64(x, -1));
            both.put(beside_f64(x, 1));
        }
        both.end(report);
    }
}

/// The f64 in the middle between the positive finite f32 with this pattern and the next one, which
/// is exact. The one after the largest is taken to be 2^128: that middle is where the overflow
/// begins.
fn middle(pattern: u32) -> f64 {
    let low = f64::from(f32::from_bits(pattern));
    let high = if pattern == 0x7F7F_FFFF {
        power(128)
    } else {
        f64::from(f32::from_bits(pattern + 1))
    };
    (low + high) / 2.0
}

fn random(rng: &mut Rng) -> f64 {
    let subnormal = rng.below(0x0080_0000) as u32;
    let finite = rng.below(0x7F80_0000) as u32;
    let x = match rng.below(8) {
        0 => f64::from_bits(rng.next()),
        1 => any_f64(rng),
        // Any exponent that f32 has, the subnormals' and some beyond each end included.
        2 => f64::from_bits(((rng.below(282) + 1023 - 152) << 52) | (rng.next() >> 12)),
        3 => middle(finite),
        4 => middle(subnormal),
        5 => off(rng, middle(finite)),
        6 => off(rng, middle(subnormal)),
        _ => off(rng, f64::from(f32::from_bits(finite))),
    };
    if rng.coin() {
        x
    } else {
        -x
    }
}

/// Next to x, or away from it by one digit further up: a rounding that forgets some of the digits
/// that it drops takes such a number for x itself.
fn off(rng: &mut Rng, x: f64) -> f64 {
    let place = if rng.coin() { 0 } else { rng.below(28) };
    beside_f64(x, rng.pick(&[-1, 1]) << place)
}
