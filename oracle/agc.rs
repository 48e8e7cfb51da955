// The AGC against the original's `Agc`.

use crate::call::{Call, Calls};
use crate::feedback::{make, Face, Way};
use crate::original::dsp;
use crate::patterns::{any_f32, ends_f32, INF, MAX, NAN};
use crate::plan::Plan;
use crate::record::{fields, record, Striking};
use crate::refusals::{self, LENGTH, LIMIT, NONE, SETTING, STATE};
use crate::report::{Bound, Check, Report};
use crate::rng::Rng;
use crate::trials::{self, any_above_zero, any_finite, any_unit, Trials};

record!(
    State = dsp::Agc {
        gain: f32,
        target: f32,
        attack: f32,
        decay: f32
    }
);

type Answered = Striking<State>;

#[link(name = "threshlantern", kind = "static")]
extern "C" {
    fn tl_agc_new(target: f32, attack: f32, decay: f32) -> Answered;
    fn tl_agc_process(state: State, data: *mut f32, n: usize) -> Answered;
}

fn setting(target: f32, attack: f32, decay: f32) -> bool {
    refusals::above_zero(target) && refusals::unit(attack) && refusals::unit(decay)
}

pub const NEW: Call = Call::new("agc_new", &[NONE, SETTING]);
pub const PROCESS: Way<State> = Way {
    call: Call::new("agc_process", &[NONE, SETTING, STATE, LIMIT, LENGTH]),
    face: Face::InPlace(tl_agc_process),
    width: 2,
    setting: |state| setting(state.target, state.attack, state.decay),
    stored: |state| state.gain.is_finite(),
    original: |state, block, out| {
        let mut data = block.to_vec();
        let mut original = dsp::Agc::from(state);
        original.process(&mut data);
        out.append(&mut data);
        original.into()
    },
};
pub const CALLS: &[Call] = &[NEW, PROCESS.call];

pub fn compare(plan: &Plan, report: &mut Report) {
    let trials = Trials {
        states: states(),
        usual: 2,
        floats: vec![|s| &mut s.gain, |s| &mut s.target, |s| &mut s.attack, |s| {
            &mut s.decay
        }],
        few: vec![0.0, -0.0, 0.5, -3.0, 1e-30, 1e19, 1e30, MAX, -INF, NAN],
        any,
    };
    making(plan, report);
    infinite(report);
    trials::compare(&PROCESS, &trials, plan, report);
}

pub fn states() -> Vec<State> {
    let state = |gain, target, attack, decay| State {
        gain,
        target,
        attack,
        decay,
    };
    vec![
        state(1.0, 0.5, 0.1, 0.001),
        state(4.0, 1.0, 0.5, 0.25),
        state(1.0, 1.0, 1.0, 1.0),
        state(0.0, 1.0, 0.5, 0.0),
        state(-1.0, 2.0, 0.0, 0.5),
        state(MAX, 1.0, 0.5, 0.5),
        state(MAX, MAX, 1.0, 1.0),
        state(1e30, 1e30, 0.0, 0.25),
        state(1e-45, 1e-45, -0.0, 1.0),
        // The error of the pair (0.5, 0) itself, which is then the decay's to follow: it stays.
        state(0.5 / (0.5 + 1e-6), 0.5, 0.1, 0.0),
    ]
}

fn any(rng: &mut Rng) -> State {
    State {
        gain: any_finite(rng),
        target: any_above_zero(rng),
        attack: any_unit(rng),
        decay: any_unit(rng),
    }
}

fn making(plan: &Plan, report: &mut Report) {
    let mut rng = Rng::new(plan.seed, NEW.name);
    let mut calls = Calls::new(NEW, "settings", &[NONE, SETTING]);
    let mut put = |target, attack, decay| new(&mut calls, target, attack, decay);
    let ends = ends_f32();
    for &target in &ends {
        for &attack in &ends {
            ends.iter().for_each(|&decay| put(target, attack, decay));
        }
    }
    for _ in 0..plan.count / 200 {
        put(any_f32(&mut rng), any_unit(&mut rng), any_unit(&mut rng));
        put(
            any_above_zero(&mut rng),
            any_f32(&mut rng),
            any_unit(&mut rng),
        );
        put(
            any_above_zero(&mut rng),
            any_unit(&mut rng),
            any_f32(&mut rng),
        );
    }
    calls.end(report);
}

pub fn new(calls: &mut Calls, target: f32, attack: f32, decay: f32) {
    // Safety: it takes no pointer.
    let answer = unsafe { tl_agc_new(target, attack, decay) };
    let original = || dsp::Agc::new(target, attack, decay).into();
    let kept = setting(target, attack, decay);
    make(
        calls,
        fields![target, attack, decay],
        answer,
        kept,
        original,
    );
}

/// An infinite magnitude of finite samples is no reason to strike: the error is 0 and the gain is
/// finite. An infinite sample is struck, as is a finite one that the gain makes infinite.
fn infinite(report: &mut Report) {
    let mut calls = Calls::new(PROCESS.call, "infinite magnitudes", &[NONE]);
    let mut check = Check::new("agc, which infinities are struck", Bound::Exact);
    let cases: [([f32; 2], usize); 4] = [
        ([1e30, 0.0], 0),
        ([MAX, MAX], 0),
        ([INF, 0.0], 1),
        ([0.0, NAN], 1),
    ];
    for (pair, struck) in cases {
        let (_, heard) = PROCESS.put(&mut calls, states()[0], &pair, 0);
        check.equal((pair[0], pair[1]), heard.struck, struck);
    }
    // With decay 0 the gain stays, and 4 times the largest float overflows.
    let mut loud = states()[1];
    loud.attack = 0.0;
    let (_, heard) = PROCESS.put(&mut calls, loud, &[MAX, 0.0], 0);
    check.equal((MAX, 0.0f32), heard.struck, 1);
    calls.end(report);
    report.end_of(check);
}
