// The decimator's calls that make one, reset it or change its cutoff.

use super::face::{make, State, Whole, NEW, RESET, UPDATE, WITH};
use super::{any, any_cutoff, phases, COUNTS, FACTORS};
use crate::call::Calls;
use crate::filters::beside;
use crate::patterns::{beside_f32, ends_f32};
use crate::plan::Plan;
use crate::refusals::{MOST, NONE};
use crate::report::Report;
use crate::rng::Rng;
use crate::streams::stream;

pub fn compare(plan: &Plan, report: &mut Report) {
    making(report);
    changing(plan, report);
    random(plan, report);
}

fn cutoffs() -> Vec<f32> {
    let mut all = ends_f32();
    for end in [1.0 / 1024.0, 0.5] {
        all.extend([-1, 0, 1].map(|by| beside_f32(end, by)));
    }
    all
}

fn making(report: &mut Report) {
    let mut new = Calls::new(NEW, "settings and lengths", NEW.gives);
    for factor in FACTORS {
        for taps in COUNTS {
            for history in beside(taps.saturating_sub(1)) {
                for cutoff in [0.05, 0.5, f32::NAN] {
                    make(&mut new, factor, Some(cutoff), taps, history);
                }
            }
        }
    }
    for cutoff in cutoffs() {
        for history in beside(24) {
            make(&mut new, 2, Some(cutoff), 25, history);
        }
    }
    // Above the limit too it is the count of taps that is wrong.
    for taps in [65_539, MOST - 1, MOST + 1, MOST + 3] {
        make(&mut new, 2, Some(0.25), taps, taps - 1);
    }
    new.end(report);
    let mut with = Calls::new(WITH, "every factor and beside", WITH.gives);
    for factor in (0..=70).chain([1 << 32 | 2, usize::MAX]) {
        let right = factor.wrapping_mul(12).wrapping_add(1).min(900);
        let near = (right.max(3) - 3..=right + 3).chain(COUNTS);
        for taps in near.chain([right + 12, right.max(12) - 12]) {
            for history in beside(taps.saturating_sub(1)) {
                make(&mut with, factor, None, taps, history);
            }
        }
    }
    with.end(report);
}

/// `reset` and `update_cutoff`, which are handed the whole decimator and look at all of it.
fn changing(plan: &Plan, report: &mut Report) {
    let mut rng = Rng::new(plan.seed, "decimator changes");
    let mut reset = Calls::new(RESET, "states and lengths", RESET.gives);
    let mut update = Calls::new(UPDATE, "states, lengths and cutoffs", UPDATE.gives);
    for factor in FACTORS {
        for phase in phases(factor) {
            for taps in COUNTS {
                for history in beside(taps.saturating_sub(1)) {
                    let whole = Whole {
                        state: State { factor, phase },
                        taps: stream(&mut rng, taps),
                        history: stream(&mut rng, history),
                    };
                    whole.change(&mut reset, None);
                    whole.change(&mut update, Some(0.125));
                    whole.change(&mut update, Some(0.75));
                }
            }
        }
    }
    for cutoff in cutoffs() {
        let factor = 2 + rng.below(63) as usize;
        let mut whole = any(&mut rng, factor, 25);
        whole.change(&mut update, Some(cutoff));
        whole.history.pop();
        whole.change(&mut update, Some(cutoff));
    }
    reset.end(report);
    update.end(report);
}

/// Calls that are accepted: chance keeps every rule at once too seldom.
fn random(plan: &Plan, report: &mut Report) {
    let mut rng = Rng::new(plan.seed, "decimator, made");
    let mut new = Calls::new(NEW, "random", &[NONE]);
    let mut reset = Calls::new(RESET, "random", &[NONE]);
    let mut update = Calls::new(UPDATE, "random", &[NONE]);
    for round in 0..plan.count / 40_000 + 63 {
        let factor = 2 + (round % 63) as usize;
        let taps = 3 + 2 * rng.below(384) as usize;
        let cutoff = any_cutoff(&mut rng);
        make(&mut new, factor, Some(cutoff), taps, taps - 1);
        let whole = any(&mut rng, factor, taps);
        whole.change(&mut reset, None);
        whole.change(&mut update, Some(cutoff));
    }
    new.end(report);
    reset.end(report);
    update.end(report);
}
