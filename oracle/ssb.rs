// The SSB demodulator against the original's `SsbDemodulator`.

mod face;

use crate::call::Calls;
use crate::filters::{self, beside, shorten, Filter, Trials};
use crate::patterns::marks;
use crate::plan::Plan;
use crate::refusals::{LENGTH, MOST, NONE, ROOM, SETTING};
use crate::report::Report;
use crate::rng::Rng;
use crate::streams::noise;
pub use face::{Whole, CALLS, NEW, PROCESS};
use face::{State, DELAY, TAPS};

pub fn compare(plan: &Plan, report: &mut Report) {
    making(report);
    tap_counts(plan, report);
    let trials = Trials {
        call: PROCESS,
        small: |rng| (0..8).map(|_| Whole::any(rng)).collect(),
        any: Whole::any,
        faults: vec![
            |whole| whole.taps.clear(),
            |whole| shorten(&mut whole.taps),
            |whole| whole.taps.truncate(63),
            |whole| whole.taps.resize(67, 0.5),
            |whole| whole.taps.resize(131, 0.5),
            |whole| shorten(&mut whole.q_history),
            |whole| whole.q_history.push(0.5),
            |whole| shorten(&mut whole.i_history),
            |whole| whole.i_history.push(0.5),
            |whole| std::mem::swap(&mut whole.q_history, &mut whole.i_history),
        ],
    };
    filters::compare(&trials, plan, report);
}

pub fn of_lengths(is_usb: bool, taps: usize, q: usize, i: usize) -> Whole {
    Whole {
        state: State { is_usb },
        taps: marks(taps, 1),
        q_history: marks(q, 2),
        i_history: marks(i, 3),
    }
}

fn making(report: &mut Report) {
    let mut calls = Calls::new(NEW, "every count of taps, histories beside", NEW.gives);
    for taps in (0..=140).chain([769, 65_537, MOST + 1]) {
        for q in beside(taps.saturating_sub(1)).into_iter().chain([TAPS - 1]) {
            for i in beside(DELAY) {
                of_lengths(taps % 3 == 0, taps, q, i).new(&mut calls);
                of_lengths(taps % 3 != 0, taps, q, i).new(&mut calls);
            }
        }
    }
    calls.end(report);
}

/// Of all counts of taps one is right; the others that a Hilbert filter may have are LENGTH, the
/// rest is SETTING, whatever stands beside.
fn tap_counts(plan: &Plan, report: &mut Report) {
    let mut rng = Rng::new(plan.seed, "ssb, counts");
    let gives = &[NONE, SETTING, LENGTH, ROOM];
    let mut calls = Calls::new(PROCESS, "every count of taps, histories beside", gives);
    let input = noise(&mut rng, 7, 1.0);
    for taps in (0..=140).chain([769, MOST + 1]) {
        for q in beside(taps.saturating_sub(1)).into_iter().chain([TAPS - 1]) {
            for (i, n, room) in [
                (DELAY, 6, 3),
                (DELAY, 6, 2),
                (DELAY - 1, 6, 3),
                (DELAY, 7, 0),
            ] {
                of_lengths(q % 2 == 0, taps, q, i).process(&mut calls, &input[..n], room);
            }
        }
    }
    calls.end(report);
}
