// Conversions, demodulators and oscillator: the entries of docs/DIFFERENCES.md.

use super::{entry, panics};
use crate::original::{converter, dsp};
use crate::patterns::{INF, NAN};
use crate::refusals::{LENGTH, LIMIT, MOST, NONE, ROOM, SETTING, STATE};
use crate::report::Report;
use crate::{am, fm, nco};
use std::f64::consts::PI;

pub fn compare(report: &mut Report) {
    conversions(report);
    demodulators(report);
    deemphasis(report);
    oscillator(report);
}

/// A target that shows which places are written.
const MARK: f32 = 9.0;

fn conversions(report: &mut Report) {
    let after = |inverted: bool, src: &[u8], places: usize| {
        let mut dst = vec![MARK; places];
        match inverted {
            false => converter::convert(src, &mut dst),
            true => converter::convert_inverted(src, &mut dst),
        }
        dst
    };
    let [plain, inverted] = &crate::converter::WAYS;
    let mut row = |way: &crate::converter::Way, place, rust, number, src: &[u8], places| {
        entry(report, way.call, place, rust, number, |calls| {
            way.put(calls, src, &vec![MARK; places]);
        });
    };
    let whole = after(false, &[0], 1) == [-1.0];
    row(plain, "odd length", whole, LENGTH, &[0], 1);
    let ignored = after(true, &[0], 1) == [MARK];
    row(inverted, "odd length", ignored, LENGTH, &[0], 1);
    let three = after(true, &[0, 255, 7], 3) == [-1.0, -1.0, MARK];
    row(inverted, "three bytes", three, LENGTH, &[0, 255, 7], 3);
    let shorter = after(false, &[0], 2) == [-1.0, MARK];
    row(plain, "unequal lengths", shorter, LENGTH, &[0], 2);
    let pairs = after(true, &[0, 255], 3) == [-1.0, -1.0, MARK];
    row(inverted, "unequal lengths", pairs, LENGTH, &[0, 255], 3);
    let long = vec![0; MOST + 1];
    let any = after(false, &long, MOST + 1) == vec![-1.0; MOST + 1];
    row(plain, "above the limit", any, LIMIT, &long, MOST + 1);
}

fn demodulators(report: &mut Report) {
    let call = fm::PROCESS.call;
    let run = |input: &[f32]| dsp::FmDemodulator::new().process(input);
    let mut row = |place, rust, number, input: &[f32], room| {
        entry(report, call, place, rust, number, |calls| {
            fm::PROCESS.put(calls, fm::fresh(), input, room);
        });
    };
    row("no room", run(&[1.0, 0.0]).len() == 1, ROOM, &[1.0, 0.0], 0);
    row("odd length", panics(|| run(&[1.0])), LENGTH, &[1.0], 1);
    let deaf = run(&[NAN, 0.0, 0.0, 1.0]).iter().all(|x| x.is_nan());
    row("a pair with a NaN", deaf, NONE, &[NAN, 0.0, 0.0, 1.0], 2);
    let run = |input: &[f32]| dsp::AmDemodulator::new().process(input);
    let mut row = |place, rust, number, input: &[f32], room| {
        entry(report, am::PROCESS.call, place, rust, number, |calls| {
            am::PROCESS.put(calls, am::fresh(), input, room);
        });
    };
    row("no room", run(&[1.0, 0.0]).len() == 1, ROOM, &[1.0, 0.0], 0);
    row("odd length", panics(|| run(&[1.0])), LENGTH, &[1.0], 1);
    let deaf = run(&[1e30, 0.0, 0.0, 1.0]).iter().all(|x| x.is_nan());
    row(
        "an infinite magnitude",
        deaf,
        NONE,
        &[1e30, 0.0, 0.0, 1.0],
        2,
    );
}

fn deemphasis(report: &mut Report) {
    let made = |rate, tau| dsp::FmDemodulator::new().with_deemphasis(rate, tau);
    let mut row = |place, rate, tau, rust| {
        entry(report, fm::WITH, place, rust, SETTING, |calls| {
            fm::with_deemphasis(calls, fm::fresh(), rate, tau)
        });
    };
    let least = f32::from_bits(0x0020_0000);
    let nan = made(least, 1.0).deemph_alpha.is_nan();
    row("rate 2^-128", least, 1.0, nan);
    let nan = made(0.0, 1.0).deemph_alpha.is_nan();
    row("rate 0", 0.0, 1.0, nan);
    let above = made(-1.0, 2.0).deemph_alpha == -1.0;
    row("a rate below 0", -1.0, 2.0, above);
    let above = made(1.0, -0.5).deemph_alpha == 2.0;
    row("tau below 0", 1.0, -0.5, above);
    let silent = made(1.0, INF).deemph_alpha == 0.0;
    row("an infinite tau", 1.0, INF, silent);
    let poisoned = fm::State {
        deemph_alpha: NAN,
        ..fm::fresh()
    };
    let healed = dsp::FmDemodulator::from(poisoned).with_deemphasis(1.0, 1.0);
    let (place, rust) = ("an old alpha of NaN", healed.deemph_alpha == 0.5);
    entry(report, fm::WITH, place, rust, SETTING, |calls| {
        fm::with_deemphasis(calls, poisoned, 1.0, 1.0)
    });
}

fn oscillator(report: &mut Report) {
    let mut made = |place, frequency, rate, rust: fn(dsp::Nco) -> bool| {
        let rust = rust(dsp::Nco::new(frequency, rate));
        entry(report, nco::NEW, place, rust, SETTING, |calls| {
            nco::new(calls, frequency, rate)
        });
    };
    made("rate 0", 0.0, 0.0, |nco| nco.phase_inc.is_nan());
    made("an infinite frequency", f64::INFINITY, 1.0, |nco| {
        nco.phase_inc.is_infinite() && nco.rotator_i.is_nan()
    });
    made("half the rate at 13 Hz", 6.5, 13.0, |nco| {
        nco.phase_inc.to_bits() == PI.to_bits() + 1
    });
    let mut poisoned = nco::State::of(0.0, 1.0);
    poisoned.phase = f64::NAN;
    let mut original = dsp::Nco::from(poisoned);
    original.reset();
    let rust = original.phase == 0.0;
    entry(report, nco::RESET, "a phase of NaN", rust, STATE, |calls| {
        nco::reset(calls, poisoned)
    });
    let mut mix = |place, number, iq: &[f32], rust: fn(&[f32]) -> bool| {
        let (state, mut out) = (nco::State::of(0.0, 1.0), iq.to_vec());
        dsp::Nco::from(state).mix(&mut out);
        entry(report, nco::MIX, place, rust(&out), number, |calls| {
            nco::mix(calls, state, iq);
        });
    };
    mix("odd length", LENGTH, &[0.5], |out| out == [0.5]);
    mix("above the limit", LIMIT, &vec![0.5; MOST + 1], |out| {
        out[MOST - 1] != 0.5 && out[MOST] == 0.5
    });
}
