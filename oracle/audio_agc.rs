// The audio AGC against the original's `AudioAgc`.

mod told;

use crate::call::{Call, Calls};
use crate::feedback::{make, Face, Way};
use crate::original::dsp;
use crate::patterns::{any_f32, beside_f32, ends_f32, INF, MAX, NAN};
use crate::plan::Plan;
use crate::record::{fields, record, Striking};
use crate::refusals::{self, HANG, LIMIT, NONE, SETTING, STATE};
use crate::report::Report;
use crate::rng::Rng;
use crate::trials::{self, any_above_zero, any_finite, any_unit, Trials};

record!(
    State = dsp::AudioAgc {
        gain: f32,
        target: f32,
        attack: f32,
        decay: f32,
        min_magnitude: f32,
        hang_time_samples: usize,
        hang_counter: usize,
        envelope: f32
    }
);

type Answered = Striking<State>;

#[link(name = "threshlantern", kind = "static")]
extern "C" {
    fn tl_audio_agc_new(
        target: f32,
        attack: f32,
        decay: f32,
        hang_time_ms: f32,
        sample_rate: f32,
        min_magnitude: f32,
    ) -> Answered;
    fn tl_audio_agc_process(state: State, data: *mut f32, n: usize) -> Answered;
}

fn setting(target: f32, attack: f32, decay: f32, floor: f32) -> bool {
    let above = refusals::above_zero(target) && refusals::above_zero(floor);
    above && refusals::unit(attack) && refusals::unit(decay)
}

pub const NEW: Call = Call::new("audio_agc_new", &[NONE, SETTING]);
pub const PROCESS: Way<State> = Way {
    call: Call::new("audio_agc_process", &[NONE, SETTING, STATE, LIMIT]),
    face: Face::InPlace(tl_audio_agc_process),
    width: 1,
    setting: |state| {
        let State { target, attack, .. } = state;
        let floats = setting(target, attack, state.decay, state.min_magnitude);
        floats && state.hang_time_samples < HANG
    },
    stored: |state| {
        let counter = state.hang_counter <= state.hang_time_samples;
        counter && state.gain.is_finite() && state.envelope.is_finite()
    },
    original: |state, block, out| {
        let mut data = block.to_vec();
        let mut original = dsp::AudioAgc::from(state);
        original.process(&mut data);
        out.append(&mut data);
        original.into()
    },
};
pub const CALLS: &[Call] = &[NEW, PROCESS.call];

pub fn compare(plan: &Plan, report: &mut Report) {
    let trials = Trials {
        states: states(),
        usual: 3,
        floats: vec![
            |s| &mut s.gain,
            |s| &mut s.target,
            |s| &mut s.attack,
            |s| &mut s.decay,
            |s| &mut s.min_magnitude,
            |s| &mut s.envelope,
        ],
        few: vec![0.0, -0.0, 0.01, -0.1, 0.019, 1.5, 1e30, MAX, INF, -INF, NAN],
        any,
    };
    making(plan, report);
    told::compare(report);
    trials::compare(&PROCESS, &trials, plan, report);
}

/// One that a receiver uses, with a floor of 0.01 and a hang time of three samples.
pub const USUAL: State = State {
    gain: 1.0,
    target: 0.7,
    attack: 0.3,
    decay: 0.05,
    min_magnitude: 0.01,
    hang_time_samples: 3,
    hang_counter: 0,
    envelope: 0.0,
};

#[rustfmt::skip]
fn states() -> Vec<State> {
    vec![
        USUAL,
        State { decay: 1.0, hang_time_samples: 2, hang_counter: 1, ..USUAL },
        State { gain: 9.0, hang_time_samples: 4800, hang_counter: 4800, envelope: 0.5, ..USUAL },
        // The error at a sample of 0.1 itself, which is then the decay's to follow.
        State { gain: 0.7 / (0.1 + 1e-6), decay: 0.0, hang_time_samples: 0, ..USUAL },
        // Dead air: gains at and beside 1, where the way back to 1 ends.
        State { gain: 1.0 + 1e-6, envelope: 0.005, hang_counter: 2, ..USUAL },
        State { gain: 1.000_001_2, envelope: 0.005, ..USUAL },
        State { gain: 20.0, envelope: 0.0101, hang_counter: 1, ..USUAL },
        State { gain: 1e30, min_magnitude: MAX, ..USUAL },
        State { gain: MAX, attack: 0.0, decay: 1.0, hang_counter: 3, ..USUAL },
        State { gain: -2.0, attack: 1.0, decay: -0.0, envelope: -1.0, ..USUAL },
        State { target: MAX, min_magnitude: 1e-45, hang_counter: 2, ..USUAL },
        State { target: MAX, min_magnitude: 1e-45, decay: 0.0, envelope: 1e-9, ..USUAL },
    ]
}

fn any(rng: &mut Rng) -> State {
    let most = rng.pick(&[1, 4, 40, 4000, HANG as u64]);
    let hang_time_samples = rng.below(most) as usize;
    let floor = any_above_zero(rng);
    State {
        gain: any_finite(rng),
        target: any_above_zero(rng),
        attack: any_unit(rng),
        decay: any_unit(rng),
        min_magnitude: rng.pick(&[0.01, 1e-6, floor]),
        hang_time_samples,
        hang_counter: rng.below(hang_time_samples as u64 + 1) as usize,
        envelope: any_finite(rng),
    }
}

pub fn new(calls: &mut Calls, settings: [f32; 6]) -> Answered {
    let [target, attack, decay, hang_time_ms, sample_rate, min_magnitude] = settings;
    let (time, rate, floor) = (hang_time_ms, sample_rate, min_magnitude);
    // Safety: it takes no pointer.
    let answer = unsafe { tl_audio_agc_new(target, attack, decay, time, rate, floor) };
    let given = fields![
        target,
        attack,
        decay,
        hang_time_ms,
        sample_rate,
        min_magnitude
    ];
    let kept = setting(target, attack, decay, floor) && refusals::hang(time, rate);
    let original = || dsp::AudioAgc::new(target, attack, decay, time, rate, floor).into();
    make(calls, given, answer, kept, original);
    answer
}

pub const SETTINGS: [f32; 6] = [0.7, 0.1, 0.001, 500.0, 48_000.0, 0.01];

fn making(plan: &Plan, report: &mut Report) {
    let mut rng = Rng::new(plan.seed, NEW.name);
    let mut calls = Calls::new(NEW, "settings", &[NONE, SETTING]);
    let good = SETTINGS;
    let ends = ends_f32();
    for (one, other) in (0..6).flat_map(|one| (0..6).map(move |other| (one, other))) {
        for &x in &ends {
            for &y in &ends {
                let mut settings = good;
                settings[one] = x;
                settings[other] = y;
                new(&mut calls, settings);
            }
        }
    }
    // Hang times at the end of the rule, by a product that is exact and by those that are not, and
    // products that overflow though the quotient would not.
    let times = [16_777_216.0, 349_525.34, 16_777.216, 1e30, 0.001, 0.2];
    let rates = [1000.0, 48_000.0, 1e6, 1.0, 1e30, 44_100.0, 0.001];
    for (time, rate) in times.into_iter().flat_map(|t| rates.map(|rate| (t, rate))) {
        for by in -3..=3 {
            let (mut one, mut other) = (good, good);
            (one[3], one[4]) = (beside_f32(time, by), rate);
            (other[3], other[4]) = (time, beside_f32(rate, by));
            new(&mut calls, one);
            new(&mut calls, other);
        }
    }
    for round in 0..plan.count / 200 {
        let mut settings = good;
        settings[3] = (rng.unit().abs() * 1e4) as f32;
        settings[4] = (rng.unit().abs() * 4e6) as f32;
        settings[round as usize % 6] = any_f32(&mut rng);
        new(&mut calls, settings);
    }
    calls.end(report);
}
