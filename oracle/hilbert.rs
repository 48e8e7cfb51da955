// The Hilbert filter's two calls against the original's `HilbertFilter`.

use crate::call::{Call, Calls, Judged};
use crate::filters::{self, beside, shorten, Filter, Trials};
use crate::lent::{bits, Lent, N, R, W};
use crate::original::dsp;
use crate::patterns::{marks, INF, MAX, NAN};
use crate::plan::Plan;
use crate::record::{Answer, Field, Part};
use crate::refusals::{self, Holds, LENGTH, LIMIT, MOST, NONE, ROOM, SETTING};
use crate::report::Report;
use crate::rng::Rng;
use crate::streams::{noise, rows, spoil, stream};

/// It has no state beyond what is lent.
#[repr(C)]
#[derive(Clone, Copy)]
struct Answered {
    refusal: u32,
    count: usize,
}

impl From<Answered> for Answer {
    fn from(answer: Answered) -> Answer {
        Answer {
            counts: vec![Field::new("count", answer.count)],
            ..Answer::from(answer.refusal)
        }
    }
}

#[link(name = "threshlantern", kind = "static")]
extern "C" {
    fn tl_hilbert_new(taps: W, n: N, history: W, m: N) -> Answered;
    fn tl_hilbert_process_into(t: R, n: N, h: W, m: N, from: R, i: N, to: W, o: N) -> Answered;
}

pub const NEW: Call = Call::new("hilbert_new", &[NONE, SETTING, LENGTH]);
const ALL: &[u32] = &[NONE, SETTING, LIMIT, LENGTH, ROOM];
pub const PROCESS: Call = Call::new("hilbert_process_into", ALL);
pub const CALLS: &[Call] = &[NEW, PROCESS];

pub fn compare(plan: &Plan, report: &mut Report) {
    making(report);
    windows(plan, report);
    let trials = Trials {
        call: PROCESS,
        small: |rng| {
            (3..=17)
                .step_by(2)
                .map(|taps| Whole::any(rng, taps))
                .collect()
        },
        any: |rng| {
            let random = 3 + 2 * rng.below(64) as usize;
            let taps = rng.pick(&[3, 5, 63, 65, 129, random]);
            Whole::any(rng, taps)
        },
        faults: vec![
            |whole| whole.taps.clear(),
            |whole| whole.taps.truncate(1),
            |whole| shorten(&mut whole.taps),
            |whole| whole.taps.resize(131, 0.5),
            |whole| shorten(&mut whole.history),
            |whole| whole.history.push(0.5),
            |whole| whole.history.clear(),
        ],
    };
    filters::compare(&trials, plan, report);
}

#[derive(Clone)]
pub struct Whole {
    pub taps: Vec<f32>,
    pub history: Vec<f32>,
}

impl Whole {
    /// Taps of the design or any, with a history; at times some of them are hostile.
    fn any(rng: &mut Rng, taps: usize) -> Whole {
        let mut whole = Whole {
            taps: match rng.coin() {
                true => dsp::HilbertFilter::new(taps).taps,
                false => noise(rng, taps, 1.0),
            },
            history: stream(rng, taps - 1),
        };
        if rng.below(8) == 0 {
            spoil(rng, &mut whole.taps, 16);
        }
        whole
    }

    fn holds(&self) -> Holds {
        Holds {
            setting: !refusals::hilbert_taps(self.taps.len()),
            length: self.history.len() + 1 != self.taps.len(),
            ..Holds::default()
        }
    }

    pub fn new(&self, calls: &mut Calls) {
        let mut t = Lent::new("taps", &self.taps);
        let mut h = Lent::new("history", &self.history);
        // Safety: here and below, each pointer and the length after it belong together.
        let answer = unsafe { tl_hilbert_new(t.start(), t.len(), h.start(), h.len()) };
        let refusal = self.holds().first();
        let written = match refusal {
            NONE => {
                let original = dsp::HilbertFilter::new(self.taps.len());
                vec![bits(&original.taps), bits(&original.history)]
            }
            _ => vec![vec![], vec![]],
        };
        let judge = Judged::new(Answered { refusal, count: 0 }, written);
        calls.hold(vec![], answer, vec![t.seen(), h.seen()], judge);
    }
}

impl Filter for Whole {
    fn width(&self) -> usize {
        1
    }

    fn process(&mut self, calls: &mut Calls, input: &[f32], room: usize) -> Vec<f32> {
        let mut t = Lent::new("taps", &self.taps);
        let mut h = Lent::new("history", &self.history);
        let mut i = Lent::new("input", input);
        let mut o = Lent::new("output", &marks(room, input.len()));
        let (from, to) = (i.start(), o.start());
        let (n, m) = (t.len(), h.len());
        let answer = unsafe {
            tl_hilbert_process_into(t.start(), n, h.start(), m, from, i.len(), to, o.len())
        };
        let refusal = Holds {
            limit: input.len() > MOST,
            room: room < input.len(),
            ..self.holds()
        }
        .first();
        let (mut history, mut out) = (Vec::new(), Vec::new());
        // An empty block leaves even a NaN of the history as it is.
        if refusal == NONE && !input.is_empty() {
            let mut original = dsp::HilbertFilter {
                taps: self.taps.clone(),
                history: self.history.clone(),
                extended: Vec::new(),
            };
            original.process_into(input, &mut out);
            history = original.history;
        }
        let count = out.len();
        let written = vec![vec![], bits(&history), vec![], bits(&out)];
        let judge = Judged::new(Answered { refusal, count }, written);
        self.history = h.slice().to_vec();
        let heard = o.slice()[..room.min(answer.count)].to_vec();
        let lent = vec![t.seen(), h.seen(), i.seen(), o.seen()];
        calls.hold(vec![], answer, lent, judge);
        heard
    }

    fn outputs(&self, samples: usize) -> usize {
        samples
    }

    fn taps(&self) -> usize {
        self.taps.len()
    }

    fn kept(&self) -> Vec<Part> {
        self.history.iter().map(|&x| Part::from(x)).collect()
    }
}

fn making(report: &mut Report) {
    let mut calls = Calls::new(NEW, "0 to 140 taps and some more", NEW.gives);
    for taps in (0..=140).chain([769, 65_537, MOST + 1]) {
        for history in beside(taps.saturating_sub(1)) {
            let (taps, history) = (marks(taps, 3), marks(history, 2));
            Whole { taps, history }.new(&mut calls);
        }
    }
    calls.end(report);
}

/// Every window of five samples out of a few numbers under some taps: the sum takes the second and
/// the fourth, whatever the others are.
fn windows(plan: &Plan, report: &mut Report) {
    let mut calls = Calls::new(PROCESS, "windows of a few numbers", &[NONE]);
    let few = [0.0, -0.0, 0.75, -1.0, MAX, INF, NAN];
    let taps = [
        [0.0, -0.6, 0.0, 0.6, 0.0],
        [1.0, 0.0, 2.0, -0.0, 3.0],
        [NAN, 2.0, INF, 0.1, NAN],
        [0.5, INF, 0.5, MAX, 0.5],
    ];
    for taps in taps {
        for window in rows(&few, 5).step_by(plan.stride()) {
            let (taps, history) = (taps.to_vec(), window[..4].to_vec());
            Whole { taps, history }.process(&mut calls, &window[4..], 1);
        }
    }
    calls.end(report);
}
