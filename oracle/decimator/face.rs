// The decimator's five calls, each held to the original's `Decimator` behind the paper's table.

use crate::call::{Call, Calls, Judged};
use crate::filters::Filter;
use crate::lent::{bits, Lent, N, R, W};
use crate::original::dsp;
use crate::patterns::marks;
use crate::record::{fields, record, Counted, Part, Record};
use crate::refusals::{self, Holds, LENGTH, LIMIT, MOST, NONE, ROOM, SETTING};

record!(State {
    factor: usize,
    phase: usize
});

type Answered = Counted<State>;

#[link(name = "threshlantern", kind = "static")]
extern "C" {
    fn tl_decimator_new(factor: N, cutoff: f32, t: W, n: N, h: W, m: N) -> Answered;
    fn tl_decimator_with_factor(factor: N, t: W, n: N, h: W, m: N) -> Answered;
    fn tl_decimator_process_into(
        s: State,
        t: R,
        n: N,
        h: W,
        m: N,
        input: R,
        i: N,
        output: W,
        o: N,
    ) -> Answered;
    fn tl_decimator_reset(s: State, t: R, n: N, h: W, m: N) -> Answered;
    fn tl_decimator_update_cutoff(s: State, cutoff: f32, t: W, n: N, h: R, m: N) -> Answered;
}

const MAKING: &[u32] = &[NONE, SETTING, LENGTH];
pub const NEW: Call = Call::new("decimator_new", MAKING);
pub const WITH: Call = Call::new("decimator_with_factor", MAKING);
pub const RESET: Call = Call::new("decimator_reset", MAKING);
pub const UPDATE: Call = Call::new("decimator_update_cutoff", MAKING);
const ALL: &[u32] = &[NONE, SETTING, LIMIT, LENGTH, ROOM];
pub const PROCESS: Call = Call::new("decimator_process_into", ALL);
pub const CALLS: &[Call] = &[NEW, WITH, PROCESS, RESET, UPDATE];

/// A whole decimator, as Rust's `self` holds it.
#[derive(Clone, Default)]
pub struct Whole {
    pub state: State,
    pub taps: Vec<f32>,
    pub history: Vec<f32>,
}

/// The cutoff of `new`; `with_factor` has none.
pub fn make(calls: &mut Calls, factor: usize, cutoff: Option<f32>, taps: usize, history: usize) {
    let mut t = Lent::new("taps", &marks(taps, factor % 99));
    let mut h = Lent::new("history", &marks(history, 1));
    let (n, m) = (taps, history);
    // Safety: here and below, each pointer and the length after it belong together.
    let (given, answer) = unsafe {
        match cutoff {
            Some(cutoff) => (
                fields![factor, cutoff],
                tl_decimator_new(factor, cutoff, t.start(), n, h.start(), m),
            ),
            None => (
                fields![factor],
                tl_decimator_with_factor(factor, t.start(), n, h.start(), m),
            ),
        }
    };
    let kept = refusals::factor(factor) && refusals::lowpass_taps(taps);
    let of_factor = factor.wrapping_mul(12).wrapping_add(1);
    let refusal = Holds {
        setting: !(kept && cutoff.is_none_or(refusals::cutoff)),
        length: history + 1 != taps || (cutoff.is_none() && taps != of_factor),
        ..Holds::default()
    }
    .first();
    let judge = match (refusal, cutoff) {
        (NONE, Some(cutoff)) => Whole::of(dsp::Decimator::new(factor, cutoff, taps)),
        (NONE, None) => Whole::of(dsp::Decimator::with_factor(factor)),
        _ => Whole::default(),
    };
    let written = vec![bits(&judge.taps), bits(&judge.history)];
    let judge = Judged::new(judge.state.answer(refusal, 0), written);
    calls.hold(given, answer, vec![t.seen(), h.seen()], judge);
}

impl State {
    fn answer(self, refusal: u32, count: usize) -> Answered {
        let state = self;
        Answered {
            refusal,
            state,
            count,
        }
    }
}

impl Whole {
    /// Of this factor, with so many taps that pass everything.
    pub fn plain(factor: usize, taps: usize) -> Whole {
        Whole {
            state: State { factor, phase: 0 },
            taps: vec![1.0; taps],
            history: vec![0.0; taps - 1],
        }
    }

    /// A small one: factor 2 and three taps.
    pub fn two(taps: [f32; 3], history: [f32; 2]) -> Whole {
        let (factor, phase) = (2, 0);
        Whole {
            state: State { factor, phase },
            taps: taps.to_vec(),
            history: history.to_vec(),
        }
    }

    fn of(original: dsp::Decimator) -> Whole {
        let (factor, phase) = (original.factor, original.phase);
        Whole {
            state: State { factor, phase },
            taps: original.taps,
            history: original.history,
        }
    }

    pub fn original(&self) -> dsp::Decimator {
        dsp::Decimator {
            taps: self.taps.clone(),
            history: self.history.clone(),
            factor: self.state.factor,
            phase: self.state.phase,
            extended: Vec::new(),
        }
    }

    fn holds(&self) -> Holds {
        let State { factor, phase } = self.state;
        let taps = self.taps.len();
        Holds {
            setting: !(refusals::factor(factor) && phase < factor && refusals::lowpass_taps(taps)),
            length: self.history.len() + 1 != taps,
            ..Holds::default()
        }
    }

    /// `update_cutoff` with a cutoff, `reset` without one.
    pub fn change(&self, calls: &mut Calls, cutoff: Option<f32>) {
        let mut t = Lent::new("taps", &self.taps);
        let mut h = Lent::new("history", &self.history);
        let (s, n, m) = (self.state, t.len(), h.len());
        let answer = unsafe {
            match cutoff {
                Some(cutoff) => tl_decimator_update_cutoff(s, cutoff, t.start(), n, h.start(), m),
                None => tl_decimator_reset(s, t.start(), n, h.start(), m),
            }
        };
        let mut given = s.fields();
        let mut holds = self.holds();
        holds.setting |= !cutoff.is_none_or(refusals::cutoff);
        let refusal = holds.first();
        let mut now = Whole::default();
        now.state = s;
        if refusal == NONE {
            let mut original = self.original();
            match cutoff {
                Some(cutoff) => original.update_cutoff(cutoff),
                None => original.reset(),
            }
            now = Whole::of(original);
        }
        let mut written = vec![bits(&now.taps), bits(&now.history)];
        // The one writes taps alone, the other history alone.
        written[usize::from(cutoff.is_some())].clear();
        if let Some(cutoff) = cutoff {
            given.extend(fields![cutoff]);
        }
        let judge = Judged::new(now.state.answer(refusal, 0), written);
        calls.hold(given, answer, vec![t.seen(), h.seen()], judge);
    }
}

impl Filter for Whole {
    fn width(&self) -> usize {
        1
    }

    fn process(&mut self, calls: &mut Calls, input: &[f32], room: usize) -> Vec<f32> {
        let mut t = Lent::new("taps", &self.taps);
        let mut h = Lent::new("history", &self.history);
        let mut i = Lent::new("input", input);
        let mut o = Lent::new("output", &marks(room, input.len()));
        #[rustfmt::skip]
        let answer = unsafe {
            tl_decimator_process_into(
                self.state, t.start(), t.len(), h.start(), h.len(), i.start(), i.len(), o.start(), o.len(),
            )
        };
        let refusal = Holds {
            limit: input.len() > MOST,
            room: room < self.outputs(input.len()),
            ..self.holds()
        }
        .first();
        let given = self.state.fields();
        let (mut now, mut out) = (Whole::default(), Vec::new());
        let mut state = self.state;
        // An empty block leaves even a NaN of the history as it is.
        if refusal == NONE && !input.is_empty() {
            let mut original = self.original();
            original.process_into(input, &mut out);
            now = Whole::of(original);
            state = now.state;
        }
        let judge = Judged::new(
            state.answer(refusal, out.len()),
            vec![vec![], bits(&now.history), vec![], bits(&out)],
        );
        self.state = answer.state;
        self.history = h.slice().to_vec();
        let heard = o.slice()[..room.min(answer.count)].to_vec();
        calls.hold(
            given,
            answer,
            vec![t.seen(), h.seen(), i.seen(), o.seen()],
            judge,
        );
        heard
    }

    fn outputs(&self, samples: usize) -> usize {
        let State { factor, phase } = self.state;
        samples.saturating_sub(phase).div_ceil(factor.max(1))
    }

    fn taps(&self) -> usize {
        self.taps.len()
    }

    fn kept(&self) -> Vec<Part> {
        let state = self.state.fields().into_iter().map(|field| field.part);
        let history = self.history.iter().map(|&x| Part::from(x));
        state.chain(history).collect()
    }

    fn place(&self, k: usize) -> usize {
        self.state.phase + k * self.state.factor
    }
}
