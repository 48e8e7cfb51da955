// The inputs that every feedback stage is put to.

use crate::call::Calls;
use crate::feedback::{Fed, Way};
use crate::laws::Laws;
use crate::patterns::{ends_f32, power};
use crate::plan::Plan;
use crate::record::Record;
use crate::refusals::{LENGTH, MOST, NONE, ROOM, SETTING, STATE};
use crate::report::Report;
use crate::rng::Rng;
use crate::streams::{hostile, length, recording, rows, spoil, stream, stream_or_silence};

/// What differs from stage to stage.
pub struct Trials<S> {
    /// States that keep every rule, and which of them a receiver would use: the first so many.
    pub states: Vec<S>,
    pub usual: usize,
    /// The floats in one.
    pub floats: Vec<fn(&mut S) -> &mut f32>,
    /// Numbers of which every row of four is tried.
    pub few: Vec<f32>,
    pub any: fn(&mut Rng) -> S,
}

pub fn compare<S: Record>(way: &Way<S>, trials: &Trials<S>, plan: &Plan, report: &mut Report) {
    let mut rng = Rng::new(plan.seed, way.call.name);
    faults(way, trials, report, &mut rng);
    lengths(way, trials, report, &mut rng);
    ends(way, trials, report, plan.stride());
    few(way, trials, report, plan.stride());
    random(way, trials, report, &mut rng, plan.count / 2);
    streams(way, trials, report, &mut rng, plan);
    field_return(way, trials, report, &mut rng, plan.stride());
}

/// An alpha, an attack or a decay.
pub fn any_unit(rng: &mut Rng) -> f32 {
    let set = [0.0, 1.0, 0.5, 1e-3, -0.0];
    match rng.below(3) {
        0 => rng.pick(&set),
        1 => rng.unit().abs() as f32,
        _ => (rng.unit().abs() * power(-(rng.below(20) as i64))) as f32,
    }
}

/// A stored float: mostly of a usual size.
pub fn any_finite(rng: &mut Rng) -> f32 {
    let any = match rng.below(4) {
        0 => hostile(rng),
        _ => (rng.unit() * power(rng.around(4))) as f32,
    };
    if any.is_finite() {
        any
    } else {
        0.5
    }
}

/// A target or a floor: mostly of a usual size, at times of any.
pub fn any_above_zero(rng: &mut Rng) -> f32 {
    let any = any_finite(rng).abs();
    if any > 0.0 {
        any
    } else {
        f32::MIN_POSITIVE
    }
}

/// A check whose inputs lead to those of the numbers that the call can give.
fn calls<S>(way: &Way<S>, what: &str, numbers: &[u32]) -> Calls {
    let gives = |number: &u32| way.call.gives.contains(number);
    let both: Vec<u32> = numbers.iter().copied().filter(gives).collect();
    Calls::new(way.call, what, &both)
}

/// The state with one of its floats at each end of the rules in turn.
fn spoilt<S: Record>(state: S, trials: &Trials<S>) -> Vec<S> {
    let mut out = Vec::new();
    for float in &trials.floats {
        for end in ends_f32() {
            let mut other = state;
            *float(&mut other) = end;
            out.push(other);
        }
    }
    out
}

/// A call without an output slice has one room.
fn rooms<S: Record>(way: &Way<S>, rooms: impl IntoIterator<Item = usize>) -> Vec<usize> {
    let most = if way.has_room() { usize::MAX } else { 1 };
    rooms.into_iter().take(most).collect()
}

/// Every number alone and all of them beside each other: the first in the table's order is given.
fn faults<S: Record>(way: &Way<S>, trials: &Trials<S>, report: &mut Report, rng: &mut Rng) {
    let mut check = calls(way, "every fault beside every other", way.call.gives);
    let good = trials.states[0];
    let keeps = |s: &S| ((way.setting)(*s), (way.stored)(*s));
    let one = spoilt(good, trials);
    let two = one.iter().flat_map(|&state| spoilt(state, trials));
    let all: Vec<S> = one.iter().copied().chain(two).collect();
    let first = |kind| all.iter().copied().find(|state| keeps(state) == kind);
    let states = [(true, true), (false, true), (true, false), (false, false)].map(first);
    // Where I and Q are apart, each may have as many.
    let near = [MOST, 2 * MOST].map(|most| most - 1..=most + 2);
    for n in [0, 1, 2, 5, 6]
        .into_iter()
        .chain(near.into_iter().flatten())
    {
        let input = stream_or_silence(rng, n);
        let steps = n / way.width;
        for state in states.into_iter().flatten() {
            for room in rooms(way, [steps, steps.saturating_sub(1), steps + 1, 0]) {
                way.put(&mut check, state, &input, room);
            }
        }
    }
    check.end(report);
}

fn lengths<S: Record>(way: &Way<S>, trials: &Trials<S>, report: &mut Report, rng: &mut Rng) {
    let mut check = calls(way, "0 to 24 samples", &[NONE, LENGTH, ROOM]);
    for &state in &trials.states {
        for n in 0..=24 {
            let input = stream(rng, n);
            for room in rooms(way, 0..=n / way.width + 2) {
                way.put(&mut check, state, &input, room);
            }
        }
    }
    check.end(report);
}

/// Each float of a state, and each two of them, at the ends of the rules.
fn ends<S: Record>(way: &Way<S>, trials: &Trials<S>, report: &mut Report, stride: usize) {
    let mut check = calls(way, "states at the ends", &[NONE, SETTING, STATE]);
    let input = [0.5, -0.25, 1.5, 0.0];
    for &good in trials.states.iter().take(2) {
        for state in spoilt(good, trials) {
            way.put(&mut check, state, &input, 4);
            way.put(&mut check, state, &[], 0);
            for other in spoilt(state, trials).into_iter().step_by(stride) {
                way.put(&mut check, other, &input[..2], 2);
            }
        }
    }
    check.end(report);
}

/// Every row of four samples out of a few numbers, from each state.
fn few<S: Record>(way: &Way<S>, trials: &Trials<S>, report: &mut Report, stride: usize) {
    let mut check = calls(way, "rows of a few numbers", &[NONE]);
    for &state in &trials.states {
        for row in rows(&trials.few, 4).step_by(stride) {
            way.put(&mut check, state, &row, 4);
        }
    }
    check.end(report);
}

/// So many samples to states that keep the rules, and short blocks to those of which one float may
/// not.
fn random<S: Record>(
    way: &Way<S>,
    trials: &Trials<S>,
    report: &mut Report,
    rng: &mut Rng,
    samples: u64,
) {
    let mut right = calls(way, "random", &[NONE]);
    let mut left = samples as i64;
    while left > 0 {
        let n = length(rng, &[MOST / 100], 3000) / way.width * way.width;
        left -= n as i64 + 40;
        let input = stream(rng, n);
        let room = n / way.width + rng.pick(&[0, 0, 1, 7]);
        way.put(&mut right, (trials.any)(rng), &input, room);
    }
    right.end(report);
    let numbers = &[NONE, SETTING, STATE, LENGTH, ROOM];
    let mut wrong = calls(way, "random, a float spoilt", numbers);
    for _ in 0..samples / 400 + 2000 {
        let mut state = (trials.any)(rng);
        *rng.pick(&trials.floats)(&mut state) = hostile(rng);
        let n = rng.below(20) as usize;
        let input = stream(rng, n);
        let room = n.saturating_sub(rng.below(3) as usize) / way.width;
        way.put(&mut wrong, state, &input, room);
    }
    wrong.end(report);
}

fn streams<S: Record>(
    way: &Way<S>,
    trials: &Trials<S>,
    report: &mut Report,
    rng: &mut Rng,
    plan: &Plan,
) {
    let mut cut = Laws::new(way.call, "any cut");
    let mut drop = Laws::new(way.call, "without what is struck");
    for round in 0..plan.count / 20_000 + 10 {
        let state = (trials.any)(rng);
        let most = if round == 0 { plan.longest() } else { 3000 };
        let n = (most as u64 - rng.below(most as u64) / 2) as usize / way.width * way.width;
        let fed = Fed { way, state };
        let samples = stream(rng, n);
        cut.cut(rng, &fed, &samples, 64);
        let mut samples = recording(rng, n.min(300));
        spoil(rng, &mut samples, 6);
        drop.drop(rng, &fed, &samples);
    }
    cut.end(report);
    drop.end(report);
}

/// A long recording with a burst in its middle: NaNs, infinities and what overflows. Afterwards the
/// stage hears on, bit for bit as if the struck samples had not been there.
fn field_return<S: Record>(
    way: &Way<S>,
    trials: &Trials<S>,
    report: &mut Report,
    rng: &mut Rng,
    stride: usize,
) {
    let mut law = Laws::new(way.call, "field return: a burst");
    for state in trials.states.iter().take(trials.usual) {
        let mut samples = recording(rng, 20_000 / stride.min(8));
        let middle = samples.len() / 2;
        spoil(rng, &mut samples[middle..middle + 400], 1);
        let fed = Fed { way, state: *state };
        law.drop(rng, &fed, &samples);
        law.hears(&fed, &samples);
    }
    law.end(report);
}
