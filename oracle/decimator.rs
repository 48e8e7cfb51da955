// The decimator against the original's `Decimator`.

mod face;
mod making;

use crate::call::Calls;
use crate::filters::{self, beside, shorten, Filter, Trials};
use crate::original::dsp;
use crate::patterns::{beside_f32, INF, MAX, NAN};
use crate::plan::Plan;
use crate::refusals::{LENGTH, NONE, ROOM, SETTING};
use crate::report::{Bound, Check, Report};
use crate::rng::Rng;
use crate::streams::{noise, rows, spoil, stream};
pub use face::{make, Whole, CALLS, NEW, PROCESS, RESET, UPDATE, WITH};
use face::State;

pub fn compare(plan: &Plan, report: &mut Report) {
    making::compare(plan, report);
    marked(report);
    windows(plan, report);
    settings(plan, report);
    let trials = Trials {
        call: PROCESS,
        small,
        any: |rng| {
            let most = rng.pick(&[4, 20, 63]);
            let factor = 2 + rng.below(most) as usize;
            let taps = 3 + 2 * rng.pick(&[0, 1, 2, 11, 40, 383]);
            any(rng, factor, taps)
        },
        faults: vec![
            |whole| whole.state.factor = 1,
            |whole| whole.state.factor = 65,
            |whole| whole.state.phase = whole.state.factor,
            |whole| whole.state.phase = usize::MAX,
            |whole| whole.taps.truncate(1),
            |whole| shorten(&mut whole.taps),
            |whole| whole.taps.resize(771, 0.5),
            |whole| whole.taps.resize(65_539, 0.5),
            |whole| shorten(&mut whole.history),
            |whole| whole.history.push(0.5),
            |whole| whole.history.clear(),
        ],
    };
    filters::compare(&trials, plan, report);
}

const FACTORS: [usize; 10] = [0, 1, 2, 3, 10, 63, 64, 65, 1 << 32 | 2, usize::MAX];
const COUNTS: [usize; 11] = [0, 1, 2, 3, 4, 25, 767, 768, 769, 770, 771];

/// 0, 1 and those beside the factor.
fn phases(factor: usize) -> [usize; 5] {
    let beside = [-1, 0, 1].map(|by| factor.wrapping_add_signed(by));
    [0, 1, beside[0], beside[1], beside[2]]
}

/// The paper's cases 5, 6 and 7, with its numbers.
fn marked(report: &mut Report) {
    let mut calls = Calls::new(PROCESS, "the marked cases", &[NONE]);
    let mut check = Check::new("decimator, cases 5 to 7 by the paper", Bound::Exact);
    let mut whole = Whole::two([0.25, 0.5, 0.25], [0.0; 2]);
    let cases: [(&[f32], &[f32], [f32; 2], usize); 3] = [
        (&[1., 2., 3., 4., 5.], &[0.25, 2., 4.], [4., 5.], 1),
        (&[6.], &[], [5., 6.], 0),
        (&[7., 8.], &[6.], [7., 8.], 0),
    ];
    for (case, (input, outputs, history, phase)) in cases.into_iter().enumerate() {
        let out = whole.process(&mut calls, input, outputs.len());
        check.equal(case, out.len(), outputs.len());
        check.equal(case, whole.state.phase, phase);
        let now = out.iter().chain(&whole.history);
        let paper = outputs.iter().chain(&history);
        now.zip(paper).for_each(|(&x, &y)| check.equal(case, x, y));
    }
    calls.end(report);
    report.end_of(check);
}

fn any_cutoff(rng: &mut Rng) -> f32 {
    let low = 1.0f32 / 1024.0;
    let floats = 0.5f32.to_bits() - low.to_bits();
    beside_f32(low, rng.below(u64::from(floats)) as i64)
}

/// Taps of a design or any, with a history and a phase; at times some of them are hostile.
fn any(rng: &mut Rng, factor: usize, taps: usize) -> Whole {
    let cutoff = any_cutoff(rng);
    let phase = rng.below(factor as u64) as usize;
    let mut whole = Whole {
        state: State { factor, phase },
        taps: match rng.coin() {
            true => dsp::design_lowpass(taps, cutoff),
            false => noise(rng, taps, 1.0),
        },
        history: stream(rng, taps - 1),
    };
    if rng.below(8) == 0 {
        spoil(rng, &mut whole.taps, 16);
    }
    whole
}

/// Every phase of every small factor, with a few counts of taps.
fn small(rng: &mut Rng) -> Vec<Whole> {
    let mut out = Vec::new();
    for factor in 2..=6 {
        for (phase, taps) in (0..factor).flat_map(|phase| [3, 5, 7, 9].map(|taps| (phase, taps))) {
            let mut whole = any(rng, factor, taps);
            whole.state.phase = phase;
            out.push(whole);
        }
    }
    out
}

/// Every window of three and every three taps out of a few numbers: what a zero, an infinity and a
/// NaN make of a sum, and the sign of a zero.
fn windows(plan: &Plan, report: &mut Report) {
    let mut calls = Calls::new(PROCESS, "windows of a few numbers", &[NONE]);
    let few = [0.0, -0.0, 1.0, -0.75, MAX, INF, NAN];
    for taps in rows(&few, 3) {
        for window in rows(&few, 3).step_by(plan.stride()) {
            let mut whole = Whole::two([taps[0], taps[1], taps[2]], [window[0], window[1]]);
            whole.process(&mut calls, &window[2..], 1);
        }
    }
    calls.end(report);
}

/// Factors, phases, counts of taps and histories at their ends, each beside each.
fn settings(plan: &Plan, report: &mut Report) {
    let mut rng = Rng::new(plan.seed, "decimator, settings");
    let gives = &[NONE, SETTING, LENGTH, ROOM];
    let mut calls = Calls::new(PROCESS, "settings, lengths and rooms", gives);
    for (factor, taps) in FACTORS
        .into_iter()
        .flat_map(|f| COUNTS.map(|taps| (f, taps)))
    {
        for phase in phases(factor) {
            for history in beside(taps.saturating_sub(1)) {
                let whole = Whole {
                    state: State { factor, phase },
                    taps: noise(&mut rng, taps, 1.0),
                    history: noise(&mut rng, history, 1.0),
                };
                let n = rng.pick(&[0, 1, 5, phase.min(300), phase.min(300) + 1, taps]);
                let input = noise(&mut rng, n, 1.0);
                for room in beside(whole.outputs(n)) {
                    whole.clone().process(&mut calls, &input, room);
                }
            }
        }
    }
    calls.end(report);
}
