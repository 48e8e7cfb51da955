// The DC remover against the original's `DcRemover`: interleaved, mono, and I and Q apart.

use crate::call::{Call, Calls};
use crate::feedback::{make, Face, Way};
use crate::original::dsp;
use crate::patterns::{any_f32, ends_f32, INF, MAX, NAN};
use crate::plan::Plan;
use crate::record::{fields, record, Striking};
use crate::refusals::{self, LENGTH, LIMIT, MOST, NONE, SETTING, STATE};
use crate::report::{Bound, Check, Report};
use crate::rng::Rng;
use crate::streams::{noise, stream};
use crate::trials::{self, any_finite, any_unit, Trials};

record!(
    State = dsp::DcRemover {
        avg_i: f32,
        avg_q: f32,
        alpha: f32
    }
);

type Answered = Striking<State>;

#[link(name = "threshlantern", kind = "static")]
extern "C" {
    fn tl_dc_remover_new(alpha: f32) -> Answered;
    fn tl_dc_remover_process(state: State, data: *mut f32, n: usize) -> Answered;
    fn tl_dc_remover_process_mono(state: State, data: *mut f32, n: usize) -> Answered;
    fn tl_dc_remover_process_split(
        state: State,
        i: *mut f32,
        n: usize,
        q: *mut f32,
        m: usize,
    ) -> Answered;
}

pub const NEW: Call = Call::new("dc_remover_new", &[NONE, SETTING]);
pub const PROCESS: Way<State> = Way {
    call: Call::new("dc_remover_process", &[NONE, SETTING, STATE, LIMIT, LENGTH]),
    face: Face::InPlace(tl_dc_remover_process),
    width: 2,
    setting: |state| refusals::unit(state.alpha),
    stored: |state| state.avg_i.is_finite() && state.avg_q.is_finite(),
    original: |state, block, out| {
        let mut data = block.to_vec();
        let mut original = dsp::DcRemover::from(state);
        original.process(&mut data);
        out.append(&mut data);
        original.into()
    },
};
pub const MONO: Way<State> = Way {
    call: Call::new("dc_remover_process_mono", &[NONE, SETTING, STATE, LIMIT]),
    face: Face::InPlace(tl_dc_remover_process_mono),
    width: 1,
    original: |state, block, out| {
        let mut data = block.to_vec();
        let mut original = dsp::DcRemover::from(state);
        original.process_mono(&mut data);
        out.append(&mut data);
        original.into()
    },
    ..PROCESS
};
const SPLIT: Way<State> = Way {
    call: Call::new("dc_remover_process_split", &[NONE, SETTING, STATE, LIMIT]),
    face: Face::Split(tl_dc_remover_process_split),
    original: |state, block, out| {
        let half = |from: usize| block.iter().skip(from).step_by(2).copied();
        let (mut i, mut q): (Vec<f32>, Vec<f32>) = (half(0).collect(), half(1).collect());
        let mut original = dsp::DcRemover::from(state);
        original.process_split(&mut i, &mut q);
        out.extend(i.into_iter().zip(q).flat_map(|(i, q)| [i, q]));
        original.into()
    },
    ..PROCESS
};
pub const CALLS: &[Call] = &[NEW, PROCESS.call, MONO.call, SPLIT.call];

pub fn compare(plan: &Plan, report: &mut Report) {
    let trials = Trials {
        states: states(),
        usual: 2,
        floats: vec![|s| &mut s.avg_i, |s| &mut s.avg_q, |s| &mut s.alpha],
        few: vec![0.0, -0.0, 1.0, -0.3, 1e-45, 3e38, MAX, -MAX, INF, -INF, NAN],
        any,
    };
    making(plan, report);
    marked(report);
    for way in [PROCESS, MONO, SPLIT] {
        trials::compare(&way, &trials, plan, report);
    }
    unequal(plan, report);
}

pub fn states() -> Vec<State> {
    let state = |avg_i, avg_q, alpha| State {
        avg_i,
        avg_q,
        alpha,
    };
    vec![
        state(0.0, 0.0, 0.5),
        state(0.25, -0.75, 0.01),
        state(-0.0, 1e-45, 1.0),
        state(MAX, -MAX, 0.0),
        state(-MAX, MAX, 0.75),
        state(MAX, -MAX, 0.01),
        state(1.0, -1.0, -0.0),
        state(0.5, 3e38, f32::MIN_POSITIVE),
    ]
}

fn any(rng: &mut Rng) -> State {
    State {
        avg_i: any_finite(rng),
        avg_q: any_finite(rng),
        alpha: any_unit(rng),
    }
}

fn making(plan: &Plan, report: &mut Report) {
    let mut rng = Rng::new(plan.seed, NEW.name);
    let mut calls = Calls::new(NEW, "alphas", &[NONE, SETTING]);
    let random = (0..plan.count / 100).map(|_| any_f32(&mut rng));
    for alpha in ends_f32().into_iter().chain(random) {
        new(&mut calls, alpha);
    }
    calls.end(report);
}

pub fn new(calls: &mut Calls, alpha: f32) {
    // Safety: it takes no pointer.
    let answer = unsafe { tl_dc_remover_new(alpha) };
    let original = || dsp::DcRemover::new(alpha).into();
    let kept = refusals::unit(alpha);
    make(calls, fields![alpha], answer, kept, original);
}

/// The paper's cases 8 and 9, with its numbers.
fn marked(report: &mut Report) {
    let mut calls = Calls::new(MONO.call, "the marked cases", &[NONE]);
    let mut check = Check::new("dc_remover, cases 8 and 9 by the paper", Bound::Exact);
    let fresh = states()[0];
    let cases: [(&[f32], &[f32], usize); 2] = [
        (&[1.0, 1.0], &[0.5, 0.25], 0),
        (&[1.0, NAN, 1.0], &[0.5, 0.0, 0.25], 1),
    ];
    for (case, (input, outputs, struck)) in cases.into_iter().enumerate() {
        let (_, heard) = MONO.put(&mut calls, fresh, input, 0);
        check.equal(case, heard.struck, struck);
        let outs = heard.out.iter().zip(outputs);
        outs.for_each(|(&x, &y)| check.equal(case, x, y));
    }
    calls.end(report);
    report.end_of(check);
}

/// I and Q of any two lengths: what is past the shorter stays, and the longer one has the limit too.
fn unequal(plan: &Plan, report: &mut Report) {
    let mut rng = Rng::new(plan.seed, "dc_remover, unequal");
    let mut calls = Calls::new(SPLIT.call, "any two lengths", &[NONE, LIMIT]);
    let mut put = |i: &[f32], q: &[f32], state| {
        SPLIT.split(tl_dc_remover_process_split, &mut calls, state, i, q);
    };
    for n in 0..=16 {
        for m in 0..=16 {
            let (i, q) = (stream(&mut rng, n), stream(&mut rng, m));
            states().into_iter().for_each(|state| put(&i, &q, state));
        }
    }
    put(&vec![0.0; MOST + 1], &[0.5, -0.5], states()[1]);
    let long = noise(&mut rng, MOST + 2, 1.0);
    for n in [0, 1, 2, MOST - 1, MOST, MOST + 1, MOST + 2] {
        for m in [0, 1, 2, MOST - 1, MOST, MOST + 1, MOST + 2] {
            put(&long[..n], &long[MOST + 2 - m..], states()[1]);
        }
    }
    calls.end(report);
}
