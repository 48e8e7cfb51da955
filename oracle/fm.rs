// The FM demodulator against the original's `FmDemodulator`.

use crate::call::{Call, Calls, Judged};
use crate::feedback::{Face, Way};
use crate::lent::{N, R, W};
use crate::original::dsp;
use crate::patterns::{any_f32, beside_f32, ends_f32, INF, MAX, NAN};
use crate::plan::Plan;
use crate::record::{fields, record, CountedStriking, Record};
use crate::refusals::{self, Holds, LENGTH, LIMIT, NONE, ROOM, SETTING, STATE};
use crate::report::{Bound, Check, Report};
use crate::rng::Rng;
use crate::streams::hostile;
use crate::trials::{self, any_finite, any_unit, Trials};
use std::f32::consts::PI;

record!(
    State = dsp::FmDemodulator {
        last_phase: f32,
        deemph_alpha: f32,
        deemph_state: f32
    }
);

type Answered = CountedStriking<State>;

#[link(name = "threshlantern", kind = "static")]
extern "C" {
    fn tl_fm_new() -> Answered;
    fn tl_fm_with_deemphasis(state: State, sample_rate: f32, tau: f32) -> Answered;
    fn tl_fm_process_into(state: State, input: R, n: N, output: W, m: N) -> Answered;
}

const NEW: Call = Call::new("fm_new", &[NONE]);
pub const WITH: Call = Call::new("fm_with_deemphasis", &[NONE, SETTING, STATE]);
const ALL: &[u32] = &[NONE, SETTING, STATE, LIMIT, LENGTH, ROOM];
pub const PROCESS: Way<State> = Way {
    call: Call::new("fm_process_into", ALL),
    face: Face::Into(tl_fm_process_into),
    width: 2,
    setting: |state| refusals::unit(state.deemph_alpha),
    stored: |state| state.last_phase.is_finite() && state.deemph_state.is_finite(),
    original: |state, block, out| {
        let mut original = dsp::FmDemodulator::from(state);
        out.append(&mut original.process(block));
        original.into()
    },
};
pub const CALLS: &[Call] = &[NEW, WITH, PROCESS.call];

pub fn compare(plan: &Plan, report: &mut Report) {
    let trials = Trials {
        states: states(),
        usual: 2,
        floats: vec![|s| &mut s.last_phase, |s| &mut s.deemph_alpha, |s| {
            &mut s.deemph_state
        }],
        few: vec![0.0, -0.0, 1.0, -1.0, 0.3, -1e-45, MAX, INF, -INF, NAN],
        any,
    };
    new(report);
    deemphasis(plan, report);
    marked(report);
    turns(report);
    trials::compare(&PROCESS, &trials, plan, report);
}

pub fn fresh() -> State {
    dsp::FmDemodulator::new().into()
}

#[rustfmt::skip]
fn states() -> Vec<State> {
    let fresh = fresh();
    vec![
        fresh,
        State { last_phase: 1.0, deemph_alpha: 0.25, deemph_state: -0.5 },
        State { last_phase: PI, ..fresh },
        State { last_phase: -PI, deemph_alpha: 0.5, ..fresh },
        State { last_phase: -0.0, deemph_alpha: -0.0, deemph_state: -0.0 },
        State { last_phase: 7.0, deemph_alpha: 0.0, deemph_state: 1.0 },
        State { last_phase: MAX, deemph_alpha: 0.5, deemph_state: -MAX },
        State { last_phase: -MAX, deemph_alpha: 0.7, deemph_state: MAX },
        State { last_phase: 1e-45, deemph_alpha: 1e-45, deemph_state: 1e-45 },
    ]
}

/// Mostly an angle that a call leaves; any float may be handed in.
fn any(rng: &mut Rng) -> State {
    State {
        last_phase: match rng.below(4) {
            0 => any_finite(rng),
            _ => (rng.unit() * f64::from(PI)) as f32,
        },
        deemph_alpha: any_unit(rng),
        deemph_state: any_finite(rng),
    }
}

fn answer(refusal: u32, state: State) -> Answered {
    Answered {
        refusal,
        state,
        count: 0,
        struck: 0,
    }
}

/// It takes nothing and cannot be refused.
fn new(report: &mut Report) {
    let mut calls = Calls::new(NEW, "the one input", &[NONE]);
    // Safety: here and below, it takes no pointer.
    let library = unsafe { tl_fm_new() };
    let judge = answer(NONE, fresh());
    calls.hold(vec![], library, vec![], Judged::new(judge, vec![]));
    calls.end(report);
}

pub fn with_deemphasis(calls: &mut Calls, state: State, sample_rate: f32, tau: f32) {
    let library = unsafe { tl_fm_with_deemphasis(state, sample_rate, tau) };
    let refusal = Holds {
        setting: !((PROCESS.setting)(state) && refusals::deemphasis(sample_rate, tau)),
        state: !(PROCESS.stored)(state),
        ..Holds::default()
    }
    .first();
    let now = match refusal {
        NONE => {
            let original = dsp::FmDemodulator::from(state);
            original.with_deemphasis(sample_rate, tau).into()
        }
        _ => state,
    };
    let mut given = state.fields();
    given.extend(fields![sample_rate, tau]);
    let judge = Judged::new(answer(refusal, now), vec![]);
    calls.hold(given, library, vec![], judge);
}

/// The old alpha is looked at though it is about to be written over, and so is the rest.
fn deemphasis(plan: &Plan, report: &mut Report) {
    let mut rng = Rng::new(plan.seed, WITH.name);
    let mut calls = Calls::new(WITH, "states, rates and taus", WITH.gives);
    let mut put = |state, rate, tau| with_deemphasis(&mut calls, state, rate, tau);
    // From 2^-128 downwards 1 / rate overflows, and the alpha is NaN.
    let least = f32::from_bits(0x0020_0000);
    let mut rates = vec![48_000.0, 1e-30, 240_000.0];
    rates.extend((-3..=3).map(|by| beside_f32(least, by)));
    rates.extend(ends_f32());
    let mut taus = vec![75e-6, 50e-6, 1e30];
    taus.extend(ends_f32());
    for &rate in &rates {
        for &tau in &taus {
            put(states()[1], rate, tau);
            put(any(&mut rng), rate, tau);
        }
    }
    for rate in [48_000.0, 0.0, least] {
        for (one, other) in ends_f32()
            .into_iter()
            .flat_map(|x| ends_f32().into_iter().map(move |y| (x, y)))
        {
            let state = states()[1];
            put(
                State {
                    last_phase: one,
                    deemph_alpha: other,
                    ..state
                },
                rate,
                75e-6,
            );
            put(
                State {
                    deemph_alpha: one,
                    deemph_state: other,
                    ..state
                },
                rate,
                75e-6,
            );
            put(
                State {
                    last_phase: one,
                    deemph_state: other,
                    ..state
                },
                rate,
                75e-6,
            );
        }
    }
    for _ in 0..plan.count / 200 {
        put(
            any(&mut rng),
            any_f32(&mut rng).abs(),
            any_f32(&mut rng).abs(),
        );
        put(any(&mut rng), any_f32(&mut rng), hostile(&mut rng));
    }
    calls.end(report);
}

/// The paper's cases 10 and 11, with its numbers.
fn marked(report: &mut Report) {
    let mut calls = Calls::new(PROCESS.call, "the marked cases", &[NONE]);
    let mut check = Check::new("fm, cases 10 and 11 by the paper", Bound::Exact);
    let cases: [(&[f32], &[f32]); 2] = [(&[1., 0., 0., 1.], &[0.0, 0.5]), (&[-1., 0.], &[1.0])];
    for (case, (input, outputs)) in cases.into_iter().enumerate() {
        let (_, heard) = PROCESS.put(&mut calls, states()[0], input, outputs.len());
        check.equal(case, heard.out.len(), outputs.len());
        let outs = heard.out.iter().zip(outputs);
        outs.for_each(|(&x, &y)| check.equal(case, x, y));
    }
    calls.end(report);
    report.end_of(check);
}

/// Differences at PI and beside it, of both signs: only beyond PI is a turn taken off or on.
fn turns(report: &mut Report) {
    let mut calls = Calls::new(PROCESS.call, "differences beside PI", &[NONE]);
    for pair in [
        [1.0, 0.0],
        [1.0, -0.0],
        [-1.0, 0.0],
        [-1.0, -0.0],
        [0.0, 1.0],
        [0.0, -1.0],
    ] {
        for angle in [PI, PI / 2.0, 2.0 * PI, 1.5 * PI, 3.0 * PI] {
            for by in -8..=8 {
                for last_phase in [beside_f32(angle, by), -beside_f32(angle, by)] {
                    let state = State {
                        last_phase,
                        ..states()[0]
                    };
                    PROCESS.put(&mut calls, state, &pair, 1);
                }
            }
        }
    }
    calls.end(report);
}
