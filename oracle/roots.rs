// The square root against Rust's own `f32::sqrt`, which IEEE 754 fixes to the last bit.

use crate::library::tl_sqrt;
use crate::patterns::{any_f32, beside_f32, edges_f32, power};
use crate::plan::Plan;
use crate::report::{Bound, Check, Report};
use crate::rng::Rng;

pub fn compare(plan: &Plan, report: &mut Report) {
    let mut marked = Check::of("sqrt", "cases 3 and 4 by the paper", Bound::Exact);
    for (x, root) in [(25.0, 5.0), (2.0, f32::from_bits(0x3FB5_04F3))] {
        marked.equal(x, tl_sqrt(x), root);
    }
    report.end_of(marked);

    let mut check = Check::of("sqrt", "edges and squares", Bound::Exact);
    let mut put = |x: f32| check.equal(x, tl_sqrt(x), x.sqrt());
    edges_f32().into_iter().for_each(&mut put);
    for n in 0..=4096u32 {
        // Squares that f32 holds exactly: whole, and in the lowest subnormals, where the root has
        // digits to spare.
        for square in [(n * n) as f32, (f64::from(n * n) * power(-148)) as f32] {
            for by in -3..=3 {
                put(beside_f32(square, by));
            }
        }
    }
    hard(&mut put);
    report.end_of(check);

    let mut rng = Rng::new(plan.seed, "square root");
    let mut check = Check::of("sqrt", "random", Bound::Exact);
    for _ in 0..plan.count {
        let x = random(&mut rng);
        check.equal(x, tl_sqrt(x), x.sqrt());
    }
    report.end_of(check);

    if plan.all {
        let mut check = Check::of("sqrt", "every f32", Bound::Exact);
        for x in (0..=u32::MAX).map(f32::from_bits) {
            check.equal(x, tl_sqrt(x), x.sqrt());
        }
        report.end_of(check);
    }
}

/// Every significand whose root comes nearest to an f32 or to a middle between two, at every
/// exponent. Of sixteen million significands only a handful come as near as can be, so chance would
/// miss them. With q the root's 24 digits as a whole number, q * q or q * q + q (the middle's
/// square less a quarter) must lie next to a multiple of 2^23 or 2^24, as every f32 is one at that
/// scale.
fn hard(put: &mut impl FnMut(f32)) {
    const NEXT: u64 = 16;
    for q in 1u64 << 23..1 << 24 {
        for square in [q * q, q * q + q] {
            for places in [23, 24] {
                let m = (square + NEXT) >> places;
                let off = (square + NEXT) & ((1 << places) - 1);
                if off <= 2 * NEXT && (1 << 23..1 << 24).contains(&m) {
                    (0..127).for_each(|e| put((m as f64 * power(2 * e - 126 - places)) as f32));
                }
            }
        }
    }
}

fn random(rng: &mut Rng) -> f32 {
    match rng.below(6) {
        0 => any_f32(rng),
        // A negative number says little, and half of the class above is negative.
        1 | 2 => any_f32(rng).abs(),
        3 => square(rng, false),
        _ => square(rng, true),
    }
}

/// An f32 beside the square of a random f32, or of a middle between two. No root of an f32 is such
/// a middle, but this one's is near it, and a root that is rounded twice or from too few digits
/// shows there.
fn square(rng: &mut Rng, middle: bool) -> f32 {
    let digits = (1 << 24) + 2 * rng.below(1 << 23) + u64::from(middle);
    // 25 binary digits, so the square is exact in f64 and is rounded once, to f32: subnormal at the
    // lower end.
    let y = digits as f64 * power(rng.below(139) as i64 - 75 - 24);
    beside_f32((y * y) as f32, rng.around(1))
}
