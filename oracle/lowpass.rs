// The lowpass taps against the original's `design_lowpass`.

use crate::call::{Call, Calls, Judged};
use crate::lent::{bits, Lent};
use crate::original::dsp;
use crate::patterns::{any_f32, beside_f32, edges_f32, marks};
use crate::plan::Plan;
use crate::record::fields;
use crate::refusals::{self, Holds, MOST, NONE, SETTING};
use crate::report::{Bound, Check, Report};
use crate::rng::Rng;
use crate::steps::{cosine_f32, sine_f32};

#[link(name = "threshlantern", kind = "static")]
extern "C" {
    fn tl_design_lowpass(taps: *mut f32, n: usize, cutoff: f32) -> u32;
}

/// The least cutoff, and the least number that is above every cutoff.
const LEAST: f32 = 1.0 / 1024.0;
const ABOVE: f32 = 0.5;

pub const DESIGN: Call = Call::new("design_lowpass", &[NONE, SETTING]);
pub const CALLS: &[Call] = &[DESIGN];

pub fn compare(plan: &Plan, report: &mut Report) {
    every_count(plan, report);
    edges(plan, report);
    random(plan, report);
    the_sum(plan, report);
    if plan.all {
        every_cutoff(report);
    }
}

fn judge(count: usize, cutoff: f32) -> Judged {
    let answer = Holds {
        setting: !(refusals::lowpass_taps(count) && refusals::cutoff(cutoff)),
        ..Holds::default()
    }
    .first();
    let taps = match answer {
        NONE => dsp::design_lowpass(count, cutoff),
        _ => Vec::new(),
    };
    Judged::new(answer, vec![bits(&taps)])
}

pub fn put(calls: &mut Calls, count: usize, cutoff: f32) {
    let mut taps = Lent::new("taps", &marks(count, count / 2));
    // Safety: pointer and length belong together.
    let answer = unsafe { tl_design_lowpass(taps.start(), taps.len(), cutoff) };
    let lent = vec![taps.seen()];
    calls.hold(fields![cutoff], answer, lent, judge(count, cutoff));
}

fn counts() -> impl Iterator<Item = usize> {
    (3..=769).step_by(2)
}

/// With the cutoffs at both ends, set ones, random ones, and the pairs that `with_factor` makes.
fn every_count(plan: &Plan, report: &mut Report) {
    let mut rng = Rng::new(plan.seed, "every count");
    let mut calls = Calls::new(DESIGN, "every count", &[NONE]);
    let of_factor = |factor: usize| 0.75 / factor as f32;
    for count in counts().step_by(plan.stride()) {
        let ends = [LEAST, beside_f32(LEAST, 1), beside_f32(ABOVE, -1)];
        let factors = [2, 3, 10, 64, 2 + count / 2 % 63].map(of_factor);
        let set = ends.into_iter().chain([0.05, 0.25]).chain(factors);
        set.for_each(|cutoff| put(&mut calls, count, cutoff));
        (0..8).for_each(|_| put(&mut calls, count, in_range(&mut rng)));
    }
    (2..=64).for_each(|factor| put(&mut calls, 12 * factor + 1, of_factor(factor)));
    calls.end(report);
}

/// Counts that are even, too small or too large, and cutoffs that are no cutoffs; a slice above the
/// limit is a count above 769, and so a setting.
fn edges(plan: &Plan, report: &mut Report) {
    let mut calls = Calls::new(DESIGN, "counts to 1100, edges", &[NONE, SETTING]);
    let mut cutoffs = vec![0.0, -0.0, 0.25, -0.25, -LEAST, 1.0, f32::MAX, f32::MIN];
    cutoffs.extend([f32::INFINITY, f32::NEG_INFINITY, f32::MIN_POSITIVE]);
    cutoffs.extend([0x7FC0_0000, 0x7F80_0001, 0xFFFF_FFFF, 1].map(f32::from_bits));
    for by in -2..=2 {
        cutoffs.extend([beside_f32(LEAST, by), beside_f32(ABOVE, by)]);
    }
    for &cutoff in &cutoffs {
        let counts = (0..=1100).step_by(plan.stride());
        counts.for_each(|count| put(&mut calls, count, cutoff));
    }
    for count in [65_537, MOST - 1, MOST, MOST + 1, MOST + 2, MOST + 3] {
        put(&mut calls, count, 0.25);
        put(&mut calls, count, f32::NAN);
    }
    calls.end(report);
}

fn random(plan: &Plan, report: &mut Report) {
    let mut rng = Rng::new(plan.seed, "design_lowpass");
    let mut right = Calls::new(DESIGN, "random", &[NONE]);
    let mut wrong = Calls::new(DESIGN, "random, refused", &[SETTING]);
    let edges = edges_f32();
    let mut left = plan.count / 8;
    while left > 0 {
        let count = 3 + 2 * rng.below(384) as usize;
        left = left.saturating_sub(count as u64);
        let cutoff = in_range(&mut rng);
        put(&mut right, count, cutoff);
        let no_count = rng.pick(&[0, 1, count - 1, count + 1, 768 + count]);
        let no_cutoff = loop {
            let any = match rng.below(3) {
                0 => any_f32(&mut rng),
                1 => rng.pick(&edges),
                _ => beside_f32(rng.pick(&[LEAST, ABOVE]), rng.around(4)),
            };
            if !refusals::cutoff(any) {
                break any;
            }
        };
        put(&mut wrong, no_count, cutoff);
        put(&mut wrong, count, no_cutoff);
        put(&mut wrong, no_count, no_cutoff);
    }
    right.end(report);
    wrong.end(report);
}

/// Each cutoff is as likely as any other, so each binade is, and the low ones weigh as much.
fn in_range(rng: &mut Rng) -> f32 {
    let (low, high) = (LEAST.to_bits(), ABOVE.to_bits());
    f32::from_bits(low + rng.below(u64::from(high - low)) as u32)
}

fn every_cutoff(report: &mut Report) {
    let mut calls = Calls::new(DESIGN, "3 taps, every cutoff", &[NONE]);
    (LEAST.to_bits()..ABOVE.to_bits()).for_each(|c| put(&mut calls, 3, f32::from_bits(c)));
    calls.end(report);
}

/// The original's sum starts from -0.0, which is what Rust's `sum` starts from, and the library's
/// from 0.0. That no tap hangs on it is shown here, by the paper's sentence with either start; the
/// second check holds the sentence itself to the original.
fn the_sum(plan: &Plan, report: &mut Report) {
    let mut rng = Rng::new(plan.seed, "the sum of the taps");
    let mut start = Check::new("lowpass taps, sum from 0.0 as from -0.0", Bound::Exact);
    let mut paper = Check::new("lowpass taps, the paper's as the original's", Bound::Exact);
    for count in counts().step_by(plan.stride()) {
        for cutoff in [LEAST, 0.05, beside_f32(ABOVE, -1), in_range(&mut rng)] {
            let taps = by_the_paper(count, cutoff, 0.0);
            let other = by_the_paper(count, cutoff, -0.0);
            let original = dsp::design_lowpass(count, cutoff);
            assert_eq!((taps.len(), original.len()), (count, count));
            for i in 0..count {
                start.equal((count, (cutoff, i)), taps[i], other[i]);
                paper.equal((count, (cutoff, i)), taps[i], original[i]);
            }
        }
    }
    report.end_of(start);
    report.end_of(paper);
}

/// Document 01, "Taps": every operation in f32 and from left to right.
fn by_the_paper(count: usize, cutoff: f32, start: f32) -> Vec<f32> {
    use std::f32::consts::PI;
    let m = (count - 1) as f32;
    let sinc = |n: f32| match n == 0.0 {
        true => 2.0 * cutoff,
        false => sine_f32(2.0 * PI * cutoff * n) / (PI * n),
    };
    let window = |i: f32| 0.54 - 0.46 * cosine_f32(2.0 * PI * i / m);
    let places = (0..count).map(|i| i as f32);
    let products: Vec<f32> = places.map(|i| sinc(i - m / 2.0) * window(i)).collect();
    let sum = products.iter().fold(start, |sum, product| sum + product);
    products.iter().map(|product| product / sum).collect()
}
