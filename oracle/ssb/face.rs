// The SSB demodulator's two calls, each held to the original's `SsbDemodulator`.

use crate::call::{Call, Calls, Judged};
use crate::filters::Filter;
use crate::lent::{bits, Lent, N, R, W};
use crate::original::dsp;
use crate::patterns::marks;
use crate::record::{fields, record, Counted, Part, Record};
use crate::refusals::{self, Holds, LENGTH, LIMIT, MOST, NONE, ROOM, SETTING};
use crate::rng::Rng;
use crate::streams::{noise, spoil, stream};

record!(State { is_usb: bool });

type Answered = Counted<State>;

#[link(name = "threshlantern", kind = "static")]
extern "C" {
    fn tl_ssb_new(is_usb: bool, taps: W, n: N, q_history: W, m: N, i_history: W, k: N) -> Answered;
    fn tl_ssb_process_into(
        state: State,
        taps: R,
        taps_len: N,
        q_history: W,
        q_len: N,
        i_history: W,
        i_len: N,
        input: R,
        input_len: N,
        output: W,
        output_len: N,
    ) -> Answered;
}

pub const NEW: Call = Call::new("ssb_new", &[NONE, SETTING, LENGTH]);
const ALL: &[u32] = &[NONE, SETTING, LIMIT, LENGTH, ROOM];
pub const PROCESS: Call = Call::new("ssb_process_into", ALL);
pub const CALLS: &[Call] = &[NEW, PROCESS];

/// The paper's numbers: so many taps, and I is delayed by so much.
pub const TAPS: usize = 65;
pub const DELAY: usize = 32;

#[derive(Clone)]
pub struct Whole {
    pub state: State,
    pub taps: Vec<f32>,
    pub q_history: Vec<f32>,
    pub i_history: Vec<f32>,
}

impl Whole {
    /// Either sideband, taps of the design or any, with histories; at times some are hostile.
    pub fn any(rng: &mut Rng) -> Whole {
        let is_usb = rng.coin();
        let mut whole = Whole {
            state: State { is_usb },
            taps: match rng.coin() {
                true => dsp::HilbertFilter::new(TAPS).taps,
                false => noise(rng, TAPS, 1.0),
            },
            q_history: stream(rng, TAPS - 1),
            i_history: stream(rng, DELAY),
        };
        if rng.below(8) == 0 {
            spoil(rng, &mut whole.taps, 16);
        }
        whole
    }

    fn holds(&self) -> Holds {
        let (taps, q, i) = (self.taps.len(), self.q_history.len(), self.i_history.len());
        Holds {
            setting: !refusals::hilbert_taps(taps),
            length: taps != TAPS || q + 1 != taps || i != DELAY,
            ..Holds::default()
        }
    }

    fn lend(&self) -> [Lent<f32>; 3] {
        [
            Lent::new("taps", &self.taps),
            Lent::new("q_history", &self.q_history),
            Lent::new("i_history", &self.i_history),
        ]
    }

    pub fn new(&self, calls: &mut Calls) {
        let is_usb = self.state.is_usb;
        let [mut t, mut q, mut i] = self.lend();
        let (n, m, k) = (t.len(), q.len(), i.len());
        // Safety: here and below, each pointer and the length after it belong together.
        let answer = unsafe { tl_ssb_new(is_usb, t.start(), n, q.start(), m, i.start(), k) };
        let refusal = self.holds().first();
        let (mut state, mut written) = (State::default(), vec![vec![]; 3]);
        if refusal == NONE {
            let made = dsp::SsbDemodulator::new(is_usb);
            state.is_usb = made.is_usb;
            let slices = [&made.hilbert.taps, &made.hilbert.history, &made.i_history];
            written = slices.map(|slice| bits(slice)).to_vec();
        }
        let answered = Answered {
            refusal,
            state,
            count: 0,
        };
        let lent = vec![t.seen(), q.seen(), i.seen()];
        calls.hold(
            fields![is_usb],
            answer,
            lent,
            Judged::new(answered, written),
        );
    }

    fn original(&self) -> dsp::SsbDemodulator {
        let none = Vec::new;
        dsp::SsbDemodulator {
            hilbert: dsp::HilbertFilter {
                taps: self.taps.clone(),
                history: self.q_history.clone(),
                extended: none(),
            },
            q_shifted: none(),
            i_history: self.i_history.clone(),
            is_usb: self.state.is_usb,
            i_branch: none(),
            q_branch: none(),
            i_extended: none(),
        }
    }
}

impl Filter for Whole {
    fn width(&self) -> usize {
        2
    }

    fn process(&mut self, calls: &mut Calls, input: &[f32], room: usize) -> Vec<f32> {
        let [mut t, mut q, mut i] = self.lend();
        let mut from = Lent::new("input", input);
        let mut to = Lent::new("output", &marks(room, input.len()));
        let (n, m, k) = (t.len(), q.len(), i.len());
        let (source, target) = (from.start(), to.start());
        #[rustfmt::skip]
        let answer = unsafe {
            tl_ssb_process_into(
                self.state, t.start(), n, q.start(), m, i.start(), k, source, input.len(), target, room,
            )
        };
        let mut holds = self.holds();
        holds.length |= input.len() % 2 != 0;
        let refusal = Holds {
            limit: input.len() > MOST,
            room: room < input.len() / 2,
            ..holds
        }
        .first();
        let (mut out, mut written) = (Vec::new(), vec![vec![]; 5]);
        // An empty block leaves even a NaN of a history as it is.
        if refusal == NONE && !input.is_empty() {
            let mut original = self.original();
            original.process_into(input, &mut out);
            written[1] = bits(&original.hilbert.history);
            written[2] = bits(&original.i_history);
            written[4] = bits(&out);
        }
        let answered = Answered {
            refusal,
            state: self.state,
            count: out.len(),
        };
        let given = self.state.fields();
        self.state = answer.state;
        (self.q_history, self.i_history) = (q.slice().to_vec(), i.slice().to_vec());
        let heard = to.slice()[..room.min(answer.count)].to_vec();
        let lent = vec![t.seen(), q.seen(), i.seen(), from.seen(), to.seen()];
        calls.hold(given, answer, lent, Judged::new(answered, written));
        heard
    }

    fn outputs(&self, samples: usize) -> usize {
        samples / 2
    }

    fn taps(&self) -> usize {
        self.taps.len()
    }

    fn kept(&self) -> Vec<Part> {
        let histories = self.q_history.iter().chain(&self.i_history);
        let flag = Part::from(self.state.is_usb);
        histories.map(|&x| Part::from(x)).chain([flag]).collect()
    }
}
