// Both conversions against the original's `convert` and `convert_inverted`.

use crate::call::{Call, Calls, Judged};
use crate::lent::{bits, Lent};
use crate::original::converter;
use crate::patterns::marks;
use crate::plan::Plan;
use crate::refusals::{Holds, LENGTH, LIMIT, MOST, NONE};
use crate::report::{Bound, Check, Report};
use crate::rng::Rng;

type Face = unsafe extern "C" fn(*const u8, usize, *mut f32, usize) -> u32;

#[link(name = "threshlantern", kind = "static")]
extern "C" {
    fn tl_convert(src: *const u8, n: usize, dst: *mut f32, m: usize) -> u32;
    fn tl_convert_inverted(src: *const u8, n: usize, dst: *mut f32, m: usize) -> u32;
}

pub struct Way {
    pub call: Call,
    library: Face,
    original: fn(&[u8], &mut [f32]),
}

const GIVES: &[u32] = &[NONE, LIMIT, LENGTH];
pub const CALLS: &[Call] = &[
    Call::new("convert", GIVES),
    Call::new("convert_inverted", GIVES),
];

pub const WAYS: [Way; 2] = [
    Way {
        call: CALLS[0],
        library: tl_convert,
        original: converter::convert,
    },
    Way {
        call: CALLS[1],
        library: tl_convert_inverted,
        original: converter::convert_inverted,
    },
];

pub fn compare(plan: &Plan, report: &mut Report) {
    for way in &WAYS {
        marked(way, report);
        pairs(way, plan, report);
        lengths(way, report);
        around_the_limit(way, plan, report);
        random(way, plan, report);
    }
}

impl Way {
    fn check(&self, what: &str, gives: &'static [u32]) -> Calls {
        Calls::new(self.call, what, gives)
    }

    fn judge(&self, src: &[u8], dst: &[f32]) -> Judged {
        let answer = Holds {
            limit: src.len() > MOST,
            length: src.len() % 2 != 0 || src.len() != dst.len(),
            ..Holds::default()
        }
        .first();
        let mut now = Vec::new();
        if answer == NONE {
            now.extend_from_slice(dst);
            (self.original)(src, &mut now);
        }
        Judged::new(answer, vec![vec![], bits(&now)])
    }

    /// What stands in the target after the call.
    pub fn put(&self, calls: &mut Calls, src: &[u8], dst: &[f32]) -> Vec<f32> {
        let (mut from, mut to) = (Lent::new("src", src), Lent::new("dst", dst));
        // Safety: both pairs of pointer and length belong together.
        let answer = unsafe { (self.library)(from.start(), from.len(), to.start(), to.len()) };
        let out = to.slice().to_vec();
        let lent = vec![from.seen(), to.seen()];
        calls.hold(vec![], answer, lent, self.judge(src, dst));
        out
    }
}

/// The paper's cases 1 and 2, with its numbers.
fn marked(way: &Way, report: &mut Report) {
    let mut calls = way.check("the marked cases", &[NONE]);
    let mut check = Check::new(
        &format!("{}, cases 1 and 2 by the paper", way.call.name),
        Bound::Exact,
    );
    let out = way.put(&mut calls, &[0, 255, 255, 0], &marks(4, 0));
    let turn = if way.call.name == "convert" { 1.0 } else { -1.0 };
    let paper = [-1.0, turn, 1.0, -turn];
    let both = out.iter().zip(&paper).enumerate();
    both.for_each(|(k, (&x, &y))| check.equal(k, x, y));
    calls.end(report);
    report.end_of(check);
}

/// Every byte in either half beside every other, each pair in a call of its own and all in one.
fn pairs(way: &Way, plan: &Plan, report: &mut Report) {
    let all: Vec<u8> = (0..=0xFFFFu16).flat_map(u16::to_be_bytes).collect();
    let mut alone = way.check("each pair of bytes alone", &[NONE]);
    for (k, pair) in all.chunks(2).enumerate().step_by(plan.stride()) {
        way.put(&mut alone, pair, &marks(2, k));
    }
    alone.end(report);
    let mut once = way.check("all pairs of bytes at once", &[NONE]);
    way.put(&mut once, &all, &marks(all.len(), 0));
    once.end(report);
}

/// Every length up to a few pairs beside every other, odd ones and unequal ones among them.
fn lengths(way: &Way, report: &mut Report) {
    let mut calls = way.check("0 to 40 bytes to 0 to 40 places", &[NONE, LENGTH]);
    let src: Vec<u8> = (0..40).map(|k| k * 6 + 1).collect();
    for n in 0..=src.len() {
        for m in 0..=src.len() {
            way.put(&mut calls, &src[..n], &marks(m, n));
        }
    }
    calls.end(report);
}

/// LIMIT stands before LENGTH and is the source's alone: a longer target is only unequal.
fn around_the_limit(way: &Way, plan: &Plan, report: &mut Report) {
    let mut rng = Rng::new(plan.seed, "around the limit");
    let mut calls = way.check("around the limit", &[NONE, LIMIT, LENGTH]);
    let src = bytes(&mut rng, 2 * MOST);
    // The stored sample of answers has room for silence.
    way.put(&mut calls, &vec![0; MOST + 1], &marks(3, 0));
    let near = [MOST - 2, MOST - 1, MOST, MOST + 1, MOST + 2];
    for n in near.into_iter().chain([0, 1, 2, 2 * MOST]) {
        for m in near.into_iter().chain([0, 1, 2]) {
            way.put(&mut calls, &src[..n], &marks(m, n + m));
        }
    }
    calls.end(report);
}

fn random(way: &Way, plan: &Plan, report: &mut Report) {
    let mut rng = Rng::new(plan.seed, way.call.name);
    let mut right = way.check("random, even and equal", &[NONE]);
    let mut wrong = way.check("random, odd or unequal", &[LENGTH]);
    let mut left = plan.count;
    while left > 0 {
        let n = length(&mut rng);
        left = left.saturating_sub(n as u64 + 1);
        let src = bytes(&mut rng, n);
        let dst = marks(n, rng.below(1000) as usize);
        way.put(&mut right, &src[..n / 2 * 2], &dst[..n / 2 * 2]);
        let shorter = rng.below(n as u64) as usize;
        let (from, to) = match rng.below(3) {
            0 => ((n - 1) | 1, (n - 1) | 1),
            1 => (shorter, n),
            _ => (n, shorter),
        };
        way.put(&mut wrong, &src[..from], &dst[..to]);
    }
    right.end(report);
    wrong.end(report);
}

/// From 1 on: mostly short, at times up to the limit.
fn length(rng: &mut Rng) -> usize {
    let most = match rng.below(100) {
        0 => MOST as u64,
        _ => rng.pick(&[4, 40, 400, 4000]),
    };
    1 + rng.below(most) as usize
}

fn bytes(rng: &mut Rng, n: usize) -> Vec<u8> {
    (0..n).map(|_| rng.next() as u8).collect()
}
