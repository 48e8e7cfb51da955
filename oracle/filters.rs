// The inputs that every filter with a history is put to.

use crate::call::{Call, Calls};
use crate::laws::{Heard, Laws, Stage};
use crate::plan::Plan;
use crate::record::Part;
use crate::refusals::{LENGTH, MOST, NONE, ROOM, SETTING};
use crate::report::Report;
use crate::rng::Rng;
use crate::streams::{length, stream, stream_or_silence};

/// A filter of the library with its taps and all that it keeps from call to call.
pub trait Filter: Clone {
    /// Samples to a step: 2 where I and Q come in pairs.
    fn width(&self) -> usize;
    /// One call with so much room, held to the judge; what the library put out.
    fn process(&mut self, calls: &mut Calls, input: &[f32], room: usize) -> Vec<f32>;
    /// How many outputs so many samples give; where a rule is broken, any number.
    fn outputs(&self, samples: usize) -> usize;
    fn taps(&self) -> usize;
    fn kept(&self) -> Vec<Part>;
    /// The step at which output `k` of a stream from here on stands.
    fn place(&self, k: usize) -> usize {
        k
    }
}

impl<F: Filter> Stage for F {
    fn width(&self) -> usize {
        Filter::width(self)
    }

    fn feed(&mut self, calls: &mut Calls, block: &[f32]) -> Heard {
        let room = self.outputs(block.len()) + block.len() % 3;
        let out = self.process(calls, block, room);
        Heard { out, struck: 0 }
    }

    fn kept(&self) -> Vec<Part> {
        Filter::kept(self)
    }

    fn place(&self, k: usize) -> usize {
        Filter::place(self, k)
    }
}

/// What differs from filter to filter.
pub struct Trials<F> {
    pub call: Call,
    /// Those that keep every rule: the small ones, and one of any size.
    pub small: fn(&mut Rng) -> Vec<F>,
    pub any: fn(&mut Rng) -> F,
    /// Ways to break a rule on settings or on lengths.
    pub faults: Vec<fn(&mut F)>,
}

pub fn compare<F: Filter>(trials: &Trials<F>, plan: &Plan, report: &mut Report) {
    let mut rng = Rng::new(plan.seed, trials.call.name);
    short(trials, report, &mut rng);
    faults(trials, report, &mut rng);
    around_the_limit(trials, report, &mut rng);
    random(trials, report, &mut rng, plan.count as i64 * 10);
    streams(trials, report, &mut rng, plan);
}

/// One short of what is right, right, one long, none.
pub fn beside(n: usize) -> [usize; 4] {
    [n.saturating_sub(1), n, n + 1, 0]
}

/// A fault of most filters: a slice that is one short.
pub fn shorten(slice: &mut Vec<f32>) {
    slice.pop();
}

/// Every length up to a few windows, odd ones among them, and every room up to enough.
fn short<F: Filter>(trials: &Trials<F>, report: &mut Report, rng: &mut Rng) {
    let pairs = (trials.any)(rng).width() == 2;
    let gives: &[u32] = if pairs {
        &[NONE, LENGTH, ROOM]
    } else {
        &[NONE, ROOM]
    };
    let mut calls = Calls::new(trials.call, "0 to 24 samples", gives);
    for n in 0..=24 {
        for filter in (trials.small)(rng) {
            let input = stream(rng, n);
            for room in 0..=filter.outputs(n) + 2 {
                filter.clone().process(&mut calls, &input, room);
            }
        }
    }
    calls.end(report);
}

/// Every rule broken alone and beside every other, at each room.
fn faults<F: Filter>(trials: &Trials<F>, report: &mut Report, rng: &mut Rng) {
    let gives = &[NONE, SETTING, LENGTH, ROOM];
    let mut calls = Calls::new(trials.call, "every fault beside every other", gives);
    let none: fn(&mut F) = |_| {};
    let all = || trials.faults.iter().copied().chain([none]);
    for (one, other) in all().flat_map(|one| all().map(move |other| (one, other))) {
        for n in [0, 1, 2, 5, 64, 65, 66, 200] {
            let mut filter = (trials.any)(rng);
            one(&mut filter);
            other(&mut filter);
            let input = stream(rng, n);
            for room in beside(filter.outputs(n)) {
                filter.clone().process(&mut calls, &input, room);
            }
        }
    }
    calls.end(report);
}

fn around_the_limit<F: Filter>(trials: &Trials<F>, report: &mut Report, rng: &mut Rng) {
    let mut calls = Calls::new(trials.call, "around the limit", trials.call.gives);
    let none: fn(&mut F) = |_| {};
    for n in [MOST - 1, MOST, MOST + 1, MOST + 2, 2 * MOST] {
        let input = stream_or_silence(rng, n);
        for fault in trials.faults.iter().copied().chain([none]) {
            let mut filter = (trials.small)(rng).swap_remove(0);
            fault(&mut filter);
            let room = filter.outputs(n);
            for less in [0, room.saturating_sub(1)] {
                filter.clone().process(&mut calls, &input, less);
            }
            filter.process(&mut calls, &input, room);
        }
        let mut filter = (trials.any)(rng);
        let room = filter.outputs(n);
        filter.process(&mut calls, &input, room);
    }
    calls.end(report);
}

/// Blocks to so much work: an output counts for its taps.
fn random<F: Filter>(trials: &Trials<F>, report: &mut Report, rng: &mut Rng, work: i64) {
    let mut right = Calls::new(trials.call, "random", &[NONE]);
    let mut left = work;
    while left > 0 {
        let mut filter = (trials.any)(rng);
        let (taps, width) = (filter.taps(), filter.width());
        let (phase, factor) = (filter.place(0), filter.place(1) - filter.place(0));
        let n = length(rng, &[taps - 1, phase, factor, taps / 2], 4000) * width;
        let room = filter.outputs(n);
        left -= (2 * room * taps + n + 300) as i64;
        let input = stream(rng, n);
        filter.process(&mut right, &input, room + rng.pick(&[0, 0, 1, 5]));
    }
    right.end(report);
    let gives = &[SETTING, LENGTH, ROOM];
    let mut wrong = Calls::new(trials.call, "random, refused", gives);
    for _ in 0..work / 100_000 + 300 {
        let mut filter = (trials.any)(rng);
        let n = (1 + rng.below(100) as usize) * filter.width() + filter.place(0);
        let input = stream(rng, n);
        let room = filter.outputs(n);
        if rng.below(4) == 0 {
            filter.process(&mut wrong, &input, rng.below(room as u64) as usize);
        } else {
            rng.pick(&trials.faults)(&mut filter);
            filter.process(&mut wrong, &input, room);
        }
    }
    wrong.end(report);
}

fn streams<F: Filter>(trials: &Trials<F>, report: &mut Report, rng: &mut Rng, plan: &Plan) {
    let mut cut = Laws::new(trials.call, "any cut");
    let mut damage = Laws::new(trials.call, "damage passes");
    for round in 0..plan.count / 20_000 + 10 {
        let filter = (trials.any)(rng);
        let (reach, width) = (filter.taps() - 1, filter.width());
        let n = match round {
            0 => plan.longest(),
            _ => rng.below(4 * reach as u64 + 400) as usize * width,
        };
        let samples = stream(rng, n);
        cut.cut(rng, &filter, &samples, reach);
        let (from, len) = (rng.below(100) as usize, rng.below(40) as usize);
        let steps = from + len + reach + rng.below(200) as usize;
        let samples = stream(rng, steps * width);
        damage.damage(rng, &filter, &samples, from..from + len, reach);
    }
    cut.end(report);
    damage.end(report);
}
