// Lowpass design, decimator, Hilbert filter and SSB: the entries of docs/DIFFERENCES.md.

use super::{entry, panics};
use crate::decimator::{self, make, Whole};
use crate::filters::Filter;
use crate::original::dsp;
use crate::patterns::{INF, NAN};
use crate::refusals::{LENGTH, LIMIT, MOST, ROOM, SETTING};
use crate::report::Report;
use crate::{hilbert, lowpass, ssb};

pub fn compare(report: &mut Report) {
    design(report);
    making(report);
    decimating(report);
    hilberts(report);
    sidebands(report);
}

fn design(report: &mut Report) {
    let mut row = |place, taps, cutoff, rust| {
        entry(report, lowpass::DESIGN, place, rust, SETTING, |calls| {
            lowpass::put(calls, taps, cutoff)
        });
    };
    let taps = dsp::design_lowpass;
    row("one tap", 1, 0.25, taps(1, 0.25)[0].is_nan());
    row("no tap", 0, 0.25, panics(|| taps(0, 0.25)));
    row("two taps", 2, 0.25, panics(|| taps(2, 0.25)));
    let many = taps(771, 0.25).iter().all(|tap| tap.is_finite());
    row("771 taps", 771, 0.25, many);
    let below = f32::from_bits(0x3A7F_FFFF);
    let made = taps(3, below).iter().all(|tap| tap.is_finite());
    row("cutoff below 1/1024", 3, below, made);
    let least = f32::from_bits(1);
    let all = taps(3, least) == [0.0, 1.0, 0.0];
    row("the least cutoff", 3, least, all);
    for (place, cutoff) in [
        ("cutoff 0.5", 0.5),
        ("cutoff 0", 0.0),
        ("cutoff -0.25", -0.25),
        ("an infinite cutoff", INF),
        ("cutoff NaN", NAN),
    ] {
        row(place, 3, cutoff, panics(|| taps(3, cutoff)));
    }
}

fn making(report: &mut Report) {
    let new = |factor| dsp::Decimator::new(factor, 0.25, 3);
    let mut row = |place, factor, rust| {
        entry(report, decimator::NEW, place, rust, SETTING, |calls| {
            make(calls, factor, Some(0.25), 3, 2)
        });
    };
    row("factor 0", 0, panics(|| new(0)));
    row("factor 1", 1, panics(|| new(1)));
    row("factor 65", 65, new(65).factor == 65);
    let with = dsp::Decimator::with_factor;
    let mut row = |place, factor, taps, number, rust| {
        entry(report, decimator::WITH, place, rust, number, |calls| {
            make(calls, factor, None, taps, taps - 1)
        });
    };
    row("factor 1", 1, 13, SETTING, panics(|| with(1)));
    row("factor 65", 65, 781, SETTING, with(65).taps.len() == 781);
    row(
        "27 taps for factor 2",
        2,
        27,
        LENGTH,
        with(2).taps.len() == 25,
    );
}

fn decimating(report: &mut Report) {
    let mut row = |place, phase, number, input: &[f32], room, rust: fn(usize, usize) -> bool| {
        let mut whole = Whole::plain(2, 3);
        whole.state.phase = phase;
        let (mut original, mut out) = (whole.original(), Vec::new());
        original.process_into(input, &mut out);
        let rust = rust(out.len(), original.phase);
        entry(report, decimator::PROCESS, place, rust, number, |calls| {
            whole.process(calls, input, room);
        });
    };
    row("room for two of three", 0, ROOM, &[1.0; 5], 2, |out, _| {
        out == 3
    });
    row(
        "phase 2 of factor 2",
        2,
        SETTING,
        &[1.0; 3],
        1,
        |out, phase| (out, phase) == (1, 1),
    );
    let long = vec![1.0; MOST + 1];
    row("above the limit", 0, LIMIT, &long, MOST, |out, _| {
        out == MOST / 2 + 1
    });
    let mut spoilt = Whole::plain(2, 3);
    spoilt.state.phase = 2;
    let mut original = spoilt.original();
    original.reset();
    let (place, rust) = ("phase 2 of factor 2", original.phase == 0);
    entry(report, decimator::RESET, place, rust, SETTING, |calls| {
        spoilt.change(calls, None)
    });
    let mut original = spoilt.original();
    original.update_cutoff(0.25);
    let rust = original.phase == 2;
    entry(report, decimator::UPDATE, place, rust, SETTING, |calls| {
        spoilt.change(calls, Some(0.25))
    });
}

fn hilberts(report: &mut Report) {
    let new = dsp::HilbertFilter::new;
    let mut row = |place, taps: usize, history, number, rust| {
        let (taps, history) = (vec![1.0; taps], vec![1.0; history]);
        let whole = hilbert::Whole { taps, history };
        entry(report, hilbert::NEW, place, rust, number, |calls| {
            whole.new(calls)
        });
    };
    row("no tap", 0, 0, SETTING, panics(|| new(0)));
    row("one tap", 1, 0, SETTING, new(1).taps == [0.0]);
    row("two taps", 2, 1, SETTING, panics(|| new(2)));
    row("131 taps", 131, 130, SETTING, new(131).taps.len() == 131);
    row(
        "a history of 3 for 3 taps",
        3,
        3,
        LENGTH,
        new(3).history.len() == 2,
    );
    let mut row = |place, number, input: &[f32], room, outputs: usize| {
        let mut out = Vec::new();
        new(3).process_into(input, &mut out);
        let (taps, history) = (new(3).taps, new(3).history);
        let rust = out.len() == outputs;
        entry(report, hilbert::PROCESS, place, rust, number, |calls| {
            hilbert::Whole { taps, history }.process(calls, input, room);
        });
    };
    row("no room", ROOM, &[1.0], 0, 1);
    let long = vec![1.0; MOST + 1];
    row("above the limit", LIMIT, &long, 0, MOST + 1);
}

fn sidebands(report: &mut Report) {
    let mut row = |place, number, taps: usize, history| {
        let rust = dsp::SsbDemodulator::new(true).hilbert.taps.len() == 65;
        entry(report, ssb::NEW, place, rust, number, |calls| {
            ssb::of_lengths(true, taps, taps - 1, history).new(calls)
        });
    };
    row("64 taps", SETTING, 64, 32);
    row("63 taps", LENGTH, 63, 32);
    row("an I history of 31", LENGTH, 65, 31);
    let run = |n: usize| dsp::SsbDemodulator::new(true).process(&vec![1.0; n]).len();
    let mut row = |place, number, n: usize, room, outputs| {
        let rust = run(n) == outputs;
        let mut whole = ssb::of_lengths(true, 65, 64, 32);
        entry(report, ssb::PROCESS, place, rust, number, |calls| {
            whole.process(calls, &vec![1.0; n], room);
        });
    };
    row("odd length", LENGTH, 1, 0, 0);
    row("three floats", LENGTH, 3, 1, 1);
    row("no room", ROOM, 2, 0, 1);
    row("above the limit", LIMIT, MOST + 1, 0, MOST / 2);
}
