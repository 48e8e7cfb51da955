// The oscillator against the original's `Nco`.
//
// Cutting a stream changes its bits here, as sine and cosine are taken afresh at the start of each
// call. So a stream is held to the original that is fed the same blocks, and to nothing else.

mod face;

use crate::call::Calls;
use crate::patterns::{any_f64, beside_f64, ends_f64, INF, MAX, NAN};
use crate::plan::Plan;
use crate::refusals::{MOST, NONE, SETTING, STATE};
use crate::report::Report;
use crate::rng::Rng;
use crate::streams::{cuts, length, rows, stream, stream_or_silence};
pub use face::{mix, new, reset, State, CALLS, MIX, NEW, RESET};
use face::{set_freq, SET};
use std::f64::consts::PI;

pub fn compare(plan: &Plan, report: &mut Report) {
    frequencies(plan, report);
    states(plan, report);
    faults(plan, report);
    few(plan, report);
    random(plan, report);
    streams(plan, report);
}

/// Frequencies and rates at the ends of their rules, at half the rate and beside it, and any.
fn frequencies(plan: &Plan, report: &mut Report) {
    let mut rng = Rng::new(plan.seed, NEW.name);
    let mut made = Calls::new(NEW, "frequencies and rates", NEW.gives);
    let mut set = Calls::new(SET, "frequencies and rates", &[NONE, SETTING]);
    let mut put = |rng: &mut Rng, frequency: f64, rate: f64| {
        new(&mut made, frequency, rate);
        set_freq(&mut set, State::any(rng), frequency, rate);
    };
    for frequency in ends_f64() {
        ends_f64()
            .into_iter()
            .for_each(|rate| put(&mut rng, frequency, rate));
    }
    // Half the rate is PI by the rule and, once rounded, not always.
    let rates = (1..=200)
        .map(f64::from)
        .chain([2.048e6, 48e3, 1e-300, 5e-324, 1e300]);
    for rate in rates {
        for by in -3..=3 {
            let half = beside_f64(rate / 2.0, by);
            put(&mut rng, half, rate);
            put(&mut rng, -half, rate);
            put(&mut rng, rate / 2.0, beside_f64(rate, by));
        }
    }
    for _ in 0..plan.count / 400 {
        let rate = rng.unit().abs() * 3e6;
        let frequency = rng.unit() * rate * 0.6;
        put(&mut rng, frequency, rate);
        let (one, other) = (any_f64(&mut rng), any_f64(&mut rng));
        put(&mut rng, one, other);
    }
    made.end(report);
    set.end(report);
}

/// Each field of a state and each two of them at the ends of the rules, in the three calls that are
/// handed one; what is about to be written over is looked at too.
fn states(plan: &Plan, report: &mut Report) {
    let mut rng = Rng::new(plan.seed, "nco, states");
    let gives = &[NONE, SETTING, STATE];
    let what = "states at the ends";
    let [mut set, mut zero, mut mixed] =
        [SET, RESET, MIX].map(|call| Calls::new(call, what, gives));
    let fields: [fn(&mut State) -> &mut f64; 4] = [
        |s| &mut s.phase,
        |s| &mut s.phase_inc,
        |s| &mut s.rotator_i,
        |s| &mut s.rotator_q,
    ];
    let pairs = fields
        .iter()
        .flat_map(|one| fields.iter().map(move |other| (one, other)));
    for (one, other) in pairs {
        for (x, y) in ends_f64()
            .iter()
            .flat_map(|&x| ends_f64().into_iter().map(move |y| (x, y)))
            .step_by(plan.stride())
        {
            let mut state = State::of(rng.unit(), rng.unit());
            *one(&mut state) = x;
            *other(&mut state) = y;
            reset(&mut zero, state);
            set_freq(&mut set, state, 1.0, rng.pick(&[48e3, 0.0]));
            mix(&mut mixed, state, &[]);
            mix(&mut mixed, state, &[0.5, -0.25, 1.0, 0.0]);
        }
    }
    set.end(report);
    zero.end(report);
    mixed.end(report);
}

/// Every number alone and beside every other.
fn faults(plan: &Plan, report: &mut Report) {
    let mut rng = Rng::new(plan.seed, "nco, faults");
    let mut calls = Calls::new(MIX, "every fault beside every other", MIX.gives);
    for n in (0..=24).chain(MOST - 1..=MOST + 2).chain([2 * MOST]) {
        let iq = stream_or_silence(&mut rng, n);
        for (increment, phase) in [
            (1.0, 0.5),
            (4.0, 0.5),
            (1.0, f64::NAN),
            (f64::NAN, f64::NAN),
        ] {
            mix(
                &mut calls,
                State {
                    phase,
                    ..State::of(0.0, increment)
                },
                &iq,
            );
        }
    }
    calls.end(report);
}

/// Every row of two pairs out of a few numbers.
fn few(plan: &Plan, report: &mut Report) {
    let mut calls = Calls::new(MIX, "rows of a few numbers", &[NONE]);
    let few = [0.0, -0.0, 1.0, -0.3, 1e-45, MAX, INF, NAN];
    // A record of zeros, rotators of any size, and a phase whose cosine and sine cancel each other.
    let wide = State {
        rotator_i: f64::MAX,
        rotator_q: -2.0,
        ..State::of(2.0, 1.0)
    };
    let mut states = vec![State::default(), wide];
    let pairs = [
        (0.0, 0.0),
        (3.0, 0.25),
        (-PI, -PI),
        (-0.0, PI),
        (0.75 * PI, 0.5 * PI),
    ];
    states.extend(pairs.map(|(phase, increment)| State::of(phase, increment)));
    for state in states {
        for row in rows(&few, 4).step_by(plan.stride()) {
            mix(&mut calls, state, &row);
        }
    }
    calls.end(report);
}

fn random(plan: &Plan, report: &mut Report) {
    let mut rng = Rng::new(plan.seed, "nco");
    let mut calls = Calls::new(MIX, "random", &[NONE]);
    let mut zero = Calls::new(RESET, "random", &[NONE]);
    let mut left = plan.count as i64 / 2;
    while left > 0 {
        let n = length(&mut rng, &[MOST / 100], 3000) / 2 * 2;
        left -= n as i64 + 40;
        let iq = stream(&mut rng, n);
        mix(&mut calls, State::any(&mut rng), &iq);
        reset(&mut zero, State::any(&mut rng));
    }
    calls.end(report);
    zero.end(report);
}

/// Long streams in blocks, with the library's state handed on and a new frequency now and then.
fn streams(plan: &Plan, report: &mut Report) {
    let mut rng = Rng::new(plan.seed, "nco, streams");
    let mut calls = Calls::new(MIX, "streams, each call", &[NONE]);
    for _ in 0..plan.count / 20_000 + 10 {
        let n = rng.below(4000) as usize * 2;
        let samples = stream(&mut rng, n);
        let mut state = State::any(&mut rng);
        for block in cuts(&mut rng, n, 2, 100) {
            state = mix(&mut calls, state, &samples[block]);
            if rng.below(50) == 0 {
                state = State::of(state.phase, rng.unit() * PI);
            }
        }
    }
    calls.end(report);
}
