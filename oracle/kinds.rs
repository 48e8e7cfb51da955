// Magnitude, finite or not, the wider format and the whole part, against Rust's own.

use crate::library::{
    tl_finite_f32, tl_finite_f64, tl_magnitude_f32, tl_magnitude_f64, tl_whole, tl_widen,
};
use crate::patterns::{any_f32, any_f64, beside_f32, edges_f32, edges_f64, power};
use crate::plan::Plan;
use crate::report::{Bound, Check, Report};
use crate::rng::Rng;

struct Singles {
    magnitude: Check,
    finite: Check,
    widen: Check,
    whole: Check,
}

impl Singles {
    fn new(inputs: &str) -> Singles {
        let check = |call| Check::of(call, inputs, Bound::Exact);
        Singles {
            magnitude: check("magnitude_f32"),
            finite: check("finite_f32"),
            widen: check("widen"),
            whole: check("whole"),
        }
    }

    #[inline]
    fn put(&mut self, x: f32) {
        self.magnitude.equal(x, tl_magnitude_f32(x), x.abs());
        self.finite.equal(x, tl_finite_f32(x), x.is_finite());
        self.widen.equal(x, tl_widen(x), x as f64);
        self.whole.equal(x, tl_whole(x), x as usize);
    }

    fn end(self, report: &mut Report) {
        report.end_of(self.magnitude);
        report.end_of(self.finite);
        report.end_of(self.widen);
        report.end_of(self.whole);
    }
}

pub fn compare(plan: &Plan, report: &mut Report) {
    let mut rng = Rng::new(plan.seed, "kinds of f32");
    let mut singles = Singles::new("edges and random");
    edges_f32().into_iter().for_each(|x| singles.put(x));
    for _ in 0..plan.count / 3 {
        singles.put(single(&mut rng));
    }
    singles.end(report);

    let mut rng = Rng::new(plan.seed, "kinds of f64");
    let mut magnitude = Check::of("magnitude_f64", "edges and random", Bound::Exact);
    let mut finite = Check::of("finite_f64", "edges and random", Bound::Exact);
    let mut put = |x: f64| {
        magnitude.equal(x, tl_magnitude_f64(x), x.abs());
        finite.equal(x, tl_finite_f64(x), x.is_finite());
    };
    edges_f64().into_iter().for_each(&mut put);
    for _ in 0..plan.count / 3 {
        put(any_f64(&mut rng));
    }
    report.end_of(magnitude);
    report.end_of(finite);

    if plan.all {
        let mut singles = Singles::new("every f32");
        (0..=u32::MAX).for_each(|pattern| singles.put(f32::from_bits(pattern)));
        singles.end(report);
    }
}

/// Beside any f32, whole numbers and those beside them at each size up to 2^65: `as usize` cuts,
/// and it stops at 0 and at the largest usize.
fn single(rng: &mut Rng) -> f32 {
    if rng.coin() {
        return any_f32(rng);
    }
    let whole = (rng.unit() * power(rng.below(66) as i64)).trunc();
    beside_f32(whole as f32, rng.around(1))
}
