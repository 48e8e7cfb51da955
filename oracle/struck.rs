// Document 01's struck rule, around the original's own method.
//
// The original is run on one sample or pair at a time. If a float that it would store or put out is
// not finite, its outputs are 0.0 and what it stored is forgotten.

use crate::record::{CountedStriking, Record, Striking};
use crate::value::Value;

/// What becomes of a block: the state after it, all that is put out, and which steps are struck.
pub struct Run<S> {
    pub state: S,
    pub out: Vec<f32>,
    pub struck: Vec<usize>,
}

impl<S: Copy> Run<S> {
    /// What becomes of a block that is refused.
    pub fn none(state: S) -> Run<S> {
        let (out, struck) = (Vec::new(), Vec::new());
        Run { state, out, struck }
    }

    pub fn answer(&self, refusal: u32) -> Striking<S> {
        Striking {
            refusal,
            state: self.state,
            struck: self.struck.len(),
        }
    }

    pub fn answer_counted(&self, refusal: u32) -> CountedStriking<S> {
        CountedStriking {
            refusal,
            state: self.state,
            count: self.out.len(),
            struck: self.struck.len(),
        }
    }
}

/// `original` runs the original over what it is given, which is one step here: `width` samples. It
/// appends what is put out and answers the state after it.
pub fn run<S: Record>(
    state: S,
    width: usize,
    input: &[f32],
    original: impl Fn(S, &[f32], &mut Vec<f32>) -> S,
) -> Run<S> {
    let mut run = Run::none(state);
    let mut kept_in = Vec::new();
    let mut kept_out = Vec::new();
    for (at, step) in input.chunks(width).enumerate() {
        let from = run.out.len();
        let next = original(run.state, step, &mut run.out);
        let put_out = &mut run.out[from..];
        if next.finite() && put_out.iter().all(|x| x.is_finite()) {
            run.state = next;
            kept_in.extend_from_slice(step);
            kept_out.extend_from_slice(put_out);
        } else {
            put_out.fill(0.0);
            run.struck.push(at);
        }
    }
    // In one go over what is left, the original says the same. So steps that are run alone are no
    // other than those in a block, and where nothing is struck the judge is the original.
    let mut at_once = Vec::new();
    let end = original(state, &kept_in, &mut at_once);
    let ends = end.fields().into_iter().zip(run.state.fields());
    let same = |(one, other): (&f32, &f32)| one.same(*other);
    assert!(at_once.len() == kept_out.len() && at_once.iter().zip(&kept_out).all(same));
    assert!(ends
        .into_iter()
        .all(|(one, other)| one.part.same(other.part)));
    run
}

/// The places of the struck steps' outputs, `width` to a step, in the lent slice of this number.
pub fn places(slice: usize, struck: &[usize], width: usize) -> Vec<(usize, usize)> {
    let of_step = |&at: &usize| (at * width..(at + 1) * width).map(move |place| (slice, place));
    struck.iter().flat_map(of_step).collect()
}
