// The AM demodulator against the original's `AmDemodulator`.

use crate::call::{Call, Calls, Judged};
use crate::feedback::{Face, Way};
use crate::lent::{N, R, W};
use crate::original::dsp;
use crate::patterns::{INF, MAX, NAN};
use crate::plan::Plan;
use crate::record::{record, CountedStriking};
use crate::refusals::{self, LENGTH, LIMIT, NONE, ROOM, SETTING, STATE};
use crate::report::{Bound, Check, Report};
use crate::rng::Rng;
use crate::trials::{self, any_finite, any_unit, Trials};

record!(
    State = dsp::AmDemodulator {
        dc_alpha: f32,
        dc_mean: f32,
        hp_alpha: f32,
        hp_state: f32
    }
);

type Answered = CountedStriking<State>;

#[link(name = "threshlantern", kind = "static")]
extern "C" {
    fn tl_am_new() -> Answered;
    fn tl_am_process_into(state: State, input: R, n: N, output: W, m: N) -> Answered;
}

const NEW: Call = Call::new("am_new", &[NONE]);
const ALL: &[u32] = &[NONE, SETTING, STATE, LIMIT, LENGTH, ROOM];
pub const PROCESS: Way<State> = Way {
    call: Call::new("am_process_into", ALL),
    face: Face::Into(tl_am_process_into),
    width: 2,
    setting: |state| refusals::unit(state.dc_alpha) && refusals::unit(state.hp_alpha),
    stored: |state| state.dc_mean.is_finite() && state.hp_state.is_finite(),
    original: |state, block, out| {
        let mut original = dsp::AmDemodulator::from(state);
        out.append(&mut original.process(block));
        original.into()
    },
};
pub const CALLS: &[Call] = &[NEW, PROCESS.call];

pub fn compare(plan: &Plan, report: &mut Report) {
    let trials = Trials {
        states: states(),
        usual: 2,
        floats: vec![
            |s| &mut s.dc_alpha,
            |s| &mut s.dc_mean,
            |s| &mut s.hp_alpha,
            |s| &mut s.hp_state,
        ],
        few: vec![0.0, -0.0, 3.0, -4.0, 0.3, 1e-30, 1e19, MAX, -INF, NAN],
        any,
    };
    new(report);
    marked(report);
    trials::compare(&PROCESS, &trials, plan, report);
}

pub fn fresh() -> State {
    dsp::AmDemodulator::new().into()
}

#[rustfmt::skip]
fn states() -> Vec<State> {
    let fresh = fresh();
    vec![
        fresh,
        State { dc_mean: 0.75, hp_state: -0.1, ..fresh },
        // A mean that equals 0 is seeded, also this one and also in the midst of a stream.
        State { dc_mean: -0.0, hp_state: -0.0, ..fresh },
        State { dc_alpha: 1.0, dc_mean: 2.0, hp_alpha: 1.0, hp_state: 3.0 },
        State { dc_alpha: 0.0, dc_mean: -1.0, hp_alpha: 0.0, hp_state: 1e-45 },
        State { dc_alpha: -0.0, dc_mean: 1e-45, hp_alpha: 0.5, hp_state: -0.5 },
        State { dc_alpha: 0.5, dc_mean: MAX, hp_alpha: 0.5, hp_state: -MAX },
        State { dc_alpha: 0.7, dc_mean: -MAX, hp_alpha: 0.1, hp_state: MAX },
        State { dc_alpha: 0.25, dc_mean: 1e-45, hp_alpha: 1e-3, hp_state: 0.0 },
    ]
}

fn any(rng: &mut Rng) -> State {
    State {
        dc_alpha: any_unit(rng),
        dc_mean: any_finite(rng),
        hp_alpha: any_unit(rng),
        hp_state: any_finite(rng),
    }
}

/// It takes nothing and cannot be refused.
fn new(report: &mut Report) {
    let mut calls = Calls::new(NEW, "the one input", &[NONE]);
    // Safety: it takes no pointer.
    let library = unsafe { tl_am_new() };
    let judge = Answered {
        refusal: NONE,
        state: fresh(),
        count: 0,
        struck: 0,
    };
    calls.hold(vec![], library, vec![], Judged::new(judge, vec![]));
    calls.end(report);
}

/// The paper's case 12, and what is struck: every infinite magnitude.
fn marked(report: &mut Report) {
    let mut calls = Calls::new(PROCESS.call, "the marked case", &[NONE]);
    let mut check = Check::new("am, case 12 by the paper, and infinities", Bound::Exact);
    let cases: [([f32; 2], usize); 4] = [
        ([3.0, 4.0], 0),
        ([1e30, 0.0], 1),
        ([INF, 0.0], 1),
        ([0.0, NAN], 1),
    ];
    for (pair, struck) in cases {
        let (state, heard) = PROCESS.put(&mut calls, states()[0], &pair, 1);
        let given = (pair[0], pair[1]);
        let mean = if struck == 0 { 5.0 } else { 0.0 };
        check.equal(given, (heard.struck, heard.out.len()), (struck, 1));
        check.equal(given, (heard.first(), state.dc_mean), (0.0, mean));
    }
    calls.end(report);
    report.end_of(check);
}
