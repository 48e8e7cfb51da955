// The oscillator's four calls, each held to the original's `Nco` behind the paper's table.

use crate::call::{Call, Calls, Judged};
use crate::lent::{bits, Lent};
use crate::original::dsp;
use crate::patterns::{any_f64, beside_f64};
use crate::record::{fields, record, Field, Record, Stated};
use crate::refusals::{self, Holds, LENGTH, LIMIT, MOST, NONE, SETTING, STATE};
use crate::rng::Rng;
use crate::steps::{cosine, sine};
use std::f64::consts::{PI, TAU};

record!(
    State = dsp::Nco {
        phase: f64,
        phase_inc: f64,
        rotator_i: f64,
        rotator_q: f64
    }
);

type Answered = Stated<State>;

#[link(name = "threshlantern", kind = "static")]
extern "C" {
    fn tl_nco_new(freq_hz: f64, sample_rate_hz: f64) -> Answered;
    fn tl_nco_set_freq(state: State, freq_hz: f64, sample_rate_hz: f64) -> Answered;
    fn tl_nco_mix(state: State, iq: *mut f32, n: usize) -> Answered;
    fn tl_nco_reset(state: State) -> Answered;
}

pub const NEW: Call = Call::new("nco_new", &[NONE, SETTING]);
pub const SET: Call = Call::new("nco_set_freq", &[NONE, SETTING, STATE]);
pub const MIX: Call = Call::new("nco_mix", &[NONE, SETTING, STATE, LIMIT, LENGTH]);
pub const RESET: Call = Call::new("nco_reset", &[NONE, SETTING, STATE]);
pub const CALLS: &[Call] = &[NEW, SET, MIX, RESET];

impl State {
    fn holds(self) -> Holds {
        let State {
            phase,
            rotator_i,
            rotator_q,
            ..
        } = self;
        Holds {
            setting: !refusals::increment(self.phase_inc),
            state: ![phase, rotator_i, rotator_q].iter().all(|x| x.is_finite()),
            ..Holds::default()
        }
    }

    /// With the rotators that the increment has.
    pub fn of(phase: f64, phase_inc: f64) -> State {
        State {
            phase,
            phase_inc,
            rotator_i: cosine(phase_inc),
            rotator_q: sine(phase_inc),
        }
    }

    /// Mostly what a call leaves; any finite phase and rotators may be handed in.
    pub fn any(rng: &mut Rng) -> State {
        let phase = match rng.below(8) {
            0 => finite(rng),
            1 => rng.pick(&[PI, -PI, TAU, 0.0, -0.0]) * rng.pick(&[1.0, 3.0, 1000.0]),
            2 => rng.unit() * 1e6,
            _ => rng.unit() * PI,
        };
        let increment = match rng.below(8) {
            0 => rng.pick(&[PI, -PI, 0.0, -0.0, beside_f64(PI, -1)]),
            1 => rng.unit() * 1e-9,
            _ => rng.unit() * PI,
        };
        let mut state = State::of(phase, increment);
        if rng.below(8) == 0 {
            (state.rotator_i, state.rotator_q) = (finite(rng), finite(rng));
        }
        state
    }
}

fn finite(rng: &mut Rng) -> f64 {
    let any = any_f64(rng);
    if any.is_finite() {
        any
    } else {
        f64::MAX
    }
}

/// A call without a slice: a making call if it is handed no state.
fn hold(
    calls: &mut Calls,
    given: Vec<Field>,
    library: Answered,
    handed: Option<State>,
    kept: bool,
    original: impl FnOnce() -> dsp::Nco,
) {
    let mut holds = handed.map(State::holds).unwrap_or_default();
    holds.setting |= !kept;
    let refusal = holds.first();
    let state = match refusal {
        NONE => original().into(),
        _ => handed.unwrap_or_default(),
    };
    let judge = Judged::new(Answered { refusal, state }, vec![]);
    calls.hold(given, library, vec![], judge);
}

// Safety, of all four: the three take no pointer, and that of `mix` has its length beside it.

pub fn new(calls: &mut Calls, freq_hz: f64, sample_rate_hz: f64) {
    let library = unsafe { tl_nco_new(freq_hz, sample_rate_hz) };
    let kept = refusals::frequency(freq_hz, sample_rate_hz);
    let original = || dsp::Nco::new(freq_hz, sample_rate_hz);
    hold(
        calls,
        fields![freq_hz, sample_rate_hz],
        library,
        None,
        kept,
        original,
    );
}

pub fn set_freq(calls: &mut Calls, state: State, freq_hz: f64, sample_rate_hz: f64) {
    let library = unsafe { tl_nco_set_freq(state, freq_hz, sample_rate_hz) };
    let kept = refusals::frequency(freq_hz, sample_rate_hz);
    let mut given = state.fields();
    given.extend(fields![freq_hz, sample_rate_hz]);
    hold(calls, given, library, Some(state), kept, || {
        let mut original = dsp::Nco::from(state);
        original.set_freq(freq_hz, sample_rate_hz);
        original
    });
}

pub fn reset(calls: &mut Calls, state: State) {
    let library = unsafe { tl_nco_reset(state) };
    hold(calls, state.fields(), library, Some(state), true, || {
        let mut original = dsp::Nco::from(state);
        original.reset();
        original
    });
}

pub fn mix(calls: &mut Calls, state: State, iq: &[f32]) -> State {
    let mut lent = Lent::new("iq", iq);
    let library = unsafe { tl_nco_mix(state, lent.start(), lent.len()) };
    let refusal = Holds {
        limit: iq.len() > MOST,
        length: iq.len() % 2 != 0,
        ..state.holds()
    }
    .first();
    let (mut now, mut out) = (state, Vec::new());
    if refusal == NONE {
        let mut original = dsp::Nco::from(state);
        out.extend_from_slice(iq);
        original.mix(&mut out);
        now = original.into();
    }
    let judge = Judged::new(
        Answered {
            refusal,
            state: now,
        },
        vec![bits(&out)],
    );
    calls.hold(state.fields(), library, vec![lent.seen()], judge);
    library.state
}
