// The audio AGC by numbers that are written down here, and not by the judge's alone.

use super::{new, State, NEW, PROCESS, SETTINGS, USUAL};
use crate::call::Calls;
use crate::patterns::{MAX, NAN};
use crate::refusals::{HANG, LIMIT, MOST, NONE, SETTING, STATE};
use crate::report::{Bound, Check, Report};

pub fn compare(report: &mut Report) {
    struck(report);
    floor(report);
    hang(report);
}

/// A product that overflows and is clamped is no reason to strike, and in dead air, where nothing is
/// clamped, it is. An infinite error is none while the hang counter counts down, and is one where
/// the decay runs, be it 0.
#[rustfmt::skip]
fn struck(report: &mut Report) {
    let mut calls = Calls::new(PROCESS.call, "what is struck", &[NONE]);
    let mut check = Check::new("audio_agc, what is struck, as told", Bound::Exact);
    let loud = State { gain: 1e30, attack: 0.0, ..USUAL };
    let dead = State { min_magnitude: MAX, ..loud };
    let hung = State { target: MAX, min_magnitude: 1e-45, hang_counter: 1, ..USUAL };
    let past = State { hang_counter: 0, decay: 0.0, ..hung };
    let cases: [(State, f32, f32, usize); 5] = [
        (loud, 1e30, 1.0, 0),
        (loud, -1e30, -1.0, 0),
        (dead, 1e30, 0.0, 1),
        (hung, 1e-9, 1e-9, 0),
        (past, 1e-9, 0.0, 1),
    ];
    for (state, sample, out, struck) in cases {
        let (_, heard) = PROCESS.put(&mut calls, state, &[sample], 0);
        check.equal((state.gain, sample), heard.struck, struck);
        check.equal((state.gain, sample), heard.first(), out);
    }
    calls.end(report);
    report.end_of(check);
}

/// The field return: with a floor of 0 the first silent sample made the gain NaN for good. Now it is
/// refused with 1; a making call gives zeros, and a state comes back as it was.
fn floor(report: &mut Report) {
    let mut making = Calls::new(NEW, "field return: a floor of 0", &[SETTING]);
    let mut calls = Calls::new(PROCESS.call, "field return: a floor of 0", &[SETTING]);
    let mut check = Check::new("audio_agc, field return: a floor of 0", Bound::Exact);
    for min_magnitude in [0.0, -0.0] {
        let mut settings = SETTINGS;
        settings[5] = min_magnitude;
        let made = new(&mut making, settings);
        check.equal(
            min_magnitude,
            (made.refusal, made.state.gain),
            (SETTING, 0.0),
        );
        let deaf = State {
            min_magnitude,
            gain: 3.5,
            hang_counter: 2,
            ..USUAL
        };
        let (state, heard) = PROCESS.put(&mut calls, deaf, &[0.5, 0.0], 0);
        let now = (state.gain, (state.hang_counter, heard.first()));
        check.equal(min_magnitude, now, (3.5, (2, 0.5)));
    }
    making.end(report);
    calls.end(report);
    report.end_of(check);
}

/// The stored hang time and its counter at their ends, alone and with each other fault beside them.
#[rustfmt::skip]
fn hang(report: &mut Report) {
    let mut calls = Calls::new(PROCESS.call, "hang times", &[NONE, SETTING, STATE, LIMIT]);
    let long = vec![0.5; MOST + 1];
    let faults = [(1.0, 0.7, 5), (NAN, 0.7, 5), (1.0, 0.0, 5), (1.0, 0.7, long.len())];
    for hang_time_samples in [0, 1, 2, 3, HANG - 1, HANG, HANG + 1, 1 << 32 | 1, usize::MAX] {
        let beside = [-1, 0, 1, 2].map(|by| hang_time_samples.wrapping_add_signed(by));
        for hang_counter in [0, 1, 2].into_iter().chain(beside) {
            for (gain, target, n) in faults {
                let state = State { gain, target, hang_time_samples, hang_counter, ..USUAL };
                PROCESS.put(&mut calls, state, &long[..n], 0);
            }
        }
    }
    calls.end(report);
}
