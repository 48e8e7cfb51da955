// What holds of a stage over whole streams: for any cut, past any damage, without what is struck.
//
// These hold one run of the library to another run of it. Every call of both is held to the judge
// as well, so a stream is compared call by call with the original that is fed the same blocks.

use crate::call::{Call, Calls};
use crate::plant::{self, Plant};
use crate::record::Part;
use crate::refusals::NONE;
use crate::report::{Bound, Check, Report};
use crate::rng::Rng;
use crate::streams;
use crate::value::Value;
use std::ops::Range;

/// A stage of the library with all that it keeps from call to call.
pub trait Stage: Clone {
    /// Samples to a step: 2 where I and Q come in pairs.
    fn width(&self) -> usize {
        1
    }
    /// One call. It is held to the judge; what the library gave goes on.
    fn feed(&mut self, calls: &mut Calls, block: &[f32]) -> Heard;
    fn kept(&self) -> Vec<Part>;
    /// The step at which output `k` of a stream from here on stands.
    fn place(&self, k: usize) -> usize {
        k
    }
}

/// What one call put out, and how many steps it struck.
pub struct Heard {
    pub out: Vec<f32>,
    pub struck: usize,
}

impl Heard {
    /// The first output; NaN where there is none.
    pub fn first(&self) -> f32 {
        self.out.first().copied().unwrap_or(f32::NAN)
    }
}

struct Row {
    out: Vec<f32>,
    struck: usize,
    kept: Vec<Part>,
}

pub struct Laws {
    calls: Calls,
    check: Check,
    /// Whether a stream was such that the law says something of it.
    telling: bool,
}

impl Laws {
    pub fn new(call: Call, law: &str) -> Laws {
        Laws {
            calls: Calls::new(call, &format!("{law}, each call"), &[NONE]),
            check: Check::new(&format!("{}, {law}", call.name), Bound::Exact),
            telling: false,
        }
    }

    pub fn end(mut self, report: &mut Report) {
        if !self.telling {
            self.check.fail("no stream that shows anything".to_string());
        }
        self.calls.end(report);
        report.end_of(self.check);
    }

    /// One call and any cut give the same outputs in a row and the same end state.
    pub fn cut<S: Stage>(&mut self, rng: &mut Rng, stage: &S, stream: &[f32], near: usize) {
        let blocks = streams::cuts(rng, stream.len(), stage.width(), near);
        let once = self.row(stage, stream, &[0..stream.len()]);
        let cut = self.row(stage, stream, &blocks);
        self.telling |= blocks.len() > 1 && !once.out.is_empty();
        self.hold(|| told(stream, &blocks), &once, cut);
    }

    /// Two streams that differ in the steps `damaged` alone, each with its own cut, give the same
    /// outputs before it and from `reach` steps after it on, and the same end state. The stream goes
    /// on at least so far.
    pub fn damage<S: Stage>(
        &mut self,
        rng: &mut Rng,
        stage: &S,
        stream: &[f32],
        damaged: Range<usize>,
        reach: usize,
    ) {
        let heard = damaged.start..damaged.end + reach;
        assert!(
            heard.end <= stream.len() / stage.width(),
            "it ends too soon"
        );
        let mut other = stream.to_vec();
        let samples = damaged.start * stage.width()..damaged.end * stage.width();
        samples.for_each(|at| other[at] = streams::hostile(rng));
        let near = reach + 1;
        let blocks = streams::cuts(rng, stream.len(), stage.width(), near);
        let mut one = self.row(stage, stream, &blocks);
        let blocks = streams::cuts(rng, stream.len(), stage.width(), near);
        let mut two = self.row(stage, &other, &blocks);
        self.telling |= one.out.iter().zip(&two.out).any(|(x, y)| !x.same(*y));
        for row in [&mut one, &mut two] {
            let places = 0..row.out.len();
            let outside = places.filter(|&k| !heard.contains(&stage.place(k)));
            row.out = outside.map(|k| row.out[k]).collect();
        }
        self.hold(|| told(stream, &blocks), &one, two);
    }

    /// A stream without what is struck in it gives the same other outputs and the same end state.
    /// Which steps are struck the library says, fed with one after the other.
    pub fn drop<S: Stage>(&mut self, rng: &mut Rng, stage: &S, stream: &[f32]) {
        let (mut alone, mut sifted) = (stage.clone(), Vec::new());
        let (mut out, mut silent) = (Vec::new(), true);
        for step in stream.chunks(stage.width()) {
            let heard = alone.feed(&mut self.calls, step);
            if heard.struck == 0 {
                sifted.extend_from_slice(step);
                out.extend(heard.out);
            } else {
                silent &= heard.out.iter().all(|x| x.to_bits() == 0);
            }
        }
        let (kept, struck) = (alone.kept(), 0);
        let blocks = streams::cuts(rng, sifted.len(), stage.width(), 64);
        let dropped = self.row(stage, &sifted, &blocks);
        self.telling |= sifted.len() < stream.len() && !sifted.is_empty();
        self.hold(
            || told(stream, &blocks),
            &Row { out, struck, kept },
            dropped,
        );
        if !silent {
            self.check
                .fail("a struck step put out more than 0.0".to_string());
        }
    }

    /// The last part of the stream, after all that was in it, is heard: finite, and not silence.
    pub fn hears<S: Stage>(&mut self, stage: &S, stream: &[f32]) {
        let blocks = (0..stream.len()).step_by(4096);
        let blocks: Vec<_> = blocks.map(|k| k..stream.len().min(k + 4096)).collect();
        let out = self.row(stage, stream, &blocks).out;
        let end = &out[out.len() / 4 * 3..];
        if !end.iter().all(|x| x.is_finite()) || end.iter().all(|x| *x == 0.0) {
            self.check.fail("deaf at the end".to_string());
        }
    }

    fn row<S: Stage>(&mut self, stage: &S, stream: &[f32], blocks: &[Range<usize>]) -> Row {
        let mut stage = stage.clone();
        let (mut out, mut struck) = (Vec::new(), 0);
        for block in blocks {
            let heard = stage.feed(&mut self.calls, &stream[block.clone()]);
            out.extend(heard.out);
            struck += heard.struck;
        }
        let kept = stage.kept();
        Row { out, struck, kept }
    }

    fn hold(&mut self, input: impl Fn() -> String, one: &Row, mut other: Row) {
        let last = other.out.last_mut();
        let planted = plant::chosen() == Some(Plant::LastBit)
            && last.is_some_and(|x| {
                let was = std::mem::replace(x, x.off());
                !was.same(*x)
            });
        let difference = one.difference(&other);
        let told = difference.map(|what| move || format!("at {}: {}", input(), what));
        self.check.count(told, planted);
    }
}

impl Row {
    fn difference(&self, other: &Row) -> Option<String> {
        if self.out.len() != other.out.len() {
            let (one, other) = (self.out.len(), other.out.len());
            return Some(format!("{one} outputs and {other}"));
        }
        if self.struck != other.struck {
            return Some(format!("{} struck and {}", self.struck, other.struck));
        }
        let mut outs = self.out.iter().zip(&other.out).enumerate();
        if let Some((k, (one, two))) = outs.find(|(_, (one, two))| !one.same(**two)) {
            return Some(format!("output {k} {} and {}", one.shown(), two.shown()));
        }
        let mut kept = self.kept.iter().zip(&other.kept);
        let parts = kept.find(|(one, two)| !one.same(**two));
        parts.map(|(one, two)| format!("kept {} and {}", one.shown(), two.shown()))
    }
}

fn told(stream: &[f32], blocks: &[Range<usize>]) -> String {
    let head: String = stream
        .iter()
        .take(4)
        .map(|x| format!(" {:08X}", x.to_bits()))
        .collect();
    let ends: String = blocks
        .iter()
        .take(8)
        .map(|b| format!(" {}", b.end))
        .collect();
    format!("{} samples:{head}, cut at{ends}", stream.len())
}
