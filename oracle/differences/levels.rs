// DC remover and both gain controls: the entries of docs/DIFFERENCES.md.

use super::{entry, panics};
use crate::audio_agc::{self, SETTINGS, USUAL};
use crate::original::dsp;
use crate::patterns::{INF, MAX, NAN};
use crate::refusals::{LENGTH, LIMIT, MOST, NONE, SETTING, STATE};
use crate::report::Report;
use crate::{agc, dc_remover};

pub fn compare(report: &mut Report) {
    dc(report);
    gain(report);
    audio_made(report);
    audio(report);
}

fn dc(report: &mut Report) {
    let above = f32::from_bits(0x3F80_0001);
    let rust = dsp::DcRemover::new(above).alpha == above;
    let place = "alpha the float above 1";
    entry(report, dc_remover::NEW, place, rust, SETTING, |calls| {
        dc_remover::new(calls, above)
    });
    let fresh = dc_remover::states()[0];
    let poisoned = dc_remover::State {
        avg_i: NAN,
        ..fresh
    };
    let mono = dc_remover::MONO;
    let mut row =
        |place, state: dc_remover::State, number, input: &[f32], rust: fn(&[f32]) -> bool| {
            let mut out = input.to_vec();
            dsp::DcRemover::from(state).process_mono(&mut out);
            entry(report, mono.call, place, rust(&out), number, |calls| {
                mono.put(calls, state, input, 0);
            });
        };
    row("1, NaN, 1", fresh, NONE, &[1.0, NAN, 1.0], |out| {
        out[0] == 0.5 && out[1].is_nan() && out[2].is_nan()
    });
    row("a mean of NaN", poisoned, STATE, &[1.0], |out| {
        out[0].is_nan()
    });
    let long = vec![1.0; MOST + 1];
    row("above the limit", fresh, LIMIT, &long, |out| {
        out[MOST].is_finite()
    });
    // What stood before the odd float is worked on by then.
    let mut data = [1.0, 1.0, 1.0];
    let rust = panics(|| dsp::DcRemover::from(fresh).process(&mut data));
    let rust = rust && data == [0.5, 0.5, 1.0];
    let pairs = dc_remover::PROCESS;
    entry(report, pairs.call, "odd length", rust, LENGTH, |calls| {
        pairs.put(calls, fresh, &[1.0; 3], 0);
    });
}

fn gain(report: &mut Report) {
    let rust = dsp::Agc::new(0.0, 0.5, 0.5).target == 0.0;
    entry(report, agc::NEW, "target 0", rust, SETTING, |calls| {
        agc::new(calls, 0.0, 0.5, 0.5)
    });
    let usual = agc::states()[0];
    let rust = panics(|| dsp::Agc::from(usual).process(&mut [1.0]));
    let call = agc::PROCESS.call;
    entry(report, call, "odd length", rust, LENGTH, |calls| {
        agc::PROCESS.put(calls, usual, &[1.0], 0);
    });
    let (pairs, mut out) = ([NAN, 0.0, 1.0, 0.0], [NAN, 0.0, 1.0, 0.0]);
    dsp::Agc::from(usual).process(&mut out);
    let deaf = out.iter().all(|x| x.is_nan());
    entry(report, call, "a pair with a NaN", deaf, NONE, |calls| {
        agc::PROCESS.put(calls, usual, &pairs, 0);
    });
}

fn audio_made(report: &mut Report) {
    let made = |s: [f32; 6]| dsp::AudioAgc::new(s[0], s[1], s[2], s[3], s[4], s[5]);
    let mut row = |place, settings, rust: fn(dsp::AudioAgc) -> bool| {
        let rust = rust(made(settings));
        entry(report, audio_agc::NEW, place, rust, SETTING, |calls| {
            audio_agc::new(calls, settings);
        });
    };
    let hang = |time, rate| {
        let mut settings = SETTINGS;
        (settings[3], settings[4]) = (time, rate);
        settings
    };
    let mut deaf = SETTINGS;
    deaf[5] = 0.0;
    // The field return: one silent sample, and the gain is NaN for good.
    row("a floor of 0", deaf, |mut agc| {
        let mut data = [0.0, 0.5, 0.5];
        agc.process(&mut data);
        agc.gain.is_nan() && data.iter().all(|x| x.is_nan())
    });
    row(
        "a hang of 2^24 samples",
        hang(16_777_216.0, 1000.0),
        |agc| agc.hang_time_samples == 16_777_216,
    );
    row("an infinite hang", hang(INF, 1000.0), |agc| {
        agc.hang_time_samples == usize::MAX
    });
    row("a hang that overflows", hang(MAX, 1000.0), |agc| {
        agc.hang_time_samples == usize::MAX
    });
    row("a hang of NaN", hang(NAN, 1000.0), |agc| {
        agc.hang_time_samples == 0
    });
    row("a hang below 0", hang(-1.0, 1000.0), |agc| {
        agc.hang_time_samples == 0
    });
    row("a rate of 0", hang(1.0, 0.0), |agc| {
        agc.hang_time_samples == 0
    });
}

fn audio(report: &mut Report) {
    let process = audio_agc::PROCESS;
    let mut data = [INF, 0.5];
    let mut original = dsp::AudioAgc::from(USUAL);
    original.process(&mut data);
    let rust = data[0] == 1.0 && original.envelope == INF;
    let place = "an infinite sample";
    entry(report, process.call, place, rust, NONE, |calls| {
        process.put(calls, USUAL, &[INF, 0.5], 0);
    });
    let counting = audio_agc::State {
        hang_time_samples: 0,
        hang_counter: 1,
        ..USUAL
    };
    let mut original = dsp::AudioAgc::from(counting);
    original.process(&mut [0.0]);
    let rust = original.hang_counter == 0;
    let place = "a counter above its hang time";
    entry(report, process.call, place, rust, STATE, |calls| {
        process.put(calls, counting, &[0.0], 0);
    });
}
