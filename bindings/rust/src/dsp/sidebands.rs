//! The Hilbert filter and the SSB demodulator. NaN and infinities pass to the outputs whose window they are in, and to
//! no other.

use super::fill;
use crate::error::{accept, Result};
use crate::ffi;

/// More taps than any Hilbert filter may have.
const TOO_MANY: usize = 131;

const SSB_TAPS: usize = 65;
const SSB_DELAY: usize = 32;

/// Turns the phase of a signal by 90 degrees.
#[derive(Clone, Debug, PartialEq)]
pub struct HilbertFilter {
    taps: Vec<f32>,
    history: Vec<f32>,
}

impl HilbertFilter {
    /// A filter of `num_taps` taps: 5, 9, 13, .. 129. With 3, 7, 11 and so on it is silent, as the original's is.
    ///
    /// Refused: `Setting` for a number of taps that is even or not from 3 to 129.
    pub fn new(num_taps: usize) -> Result<Self> {
        let mut taps = vec![0.0; num_taps.min(TOO_MANY)];
        let mut history = vec![0.0; taps.len().saturating_sub(1)];
        let done = unsafe { ffi::tl_hilbert_new(taps.as_mut_ptr(), taps.len(), history.as_mut_ptr(), history.len()) };
        accept(done.refusal)?;
        Ok(Self { taps, history })
    }

    /// Filters a block: `output` then holds an output for each sample and nothing else.
    ///
    /// Refused: `Limit`.
    pub fn process_into(&mut self, input: &[f32], output: &mut Vec<f32>) -> Result<()> {
        fill(output, input.len(), |output| {
            let done = unsafe {
                ffi::tl_hilbert_process_into(
                    self.taps.as_ptr(),
                    self.taps.len(),
                    self.history.as_mut_ptr(),
                    self.history.len(),
                    input.as_ptr(),
                    input.len(),
                    output.as_mut_ptr(),
                    output.len(),
                )
            };
            (done.refusal, done.count, ())
        })
    }
}

/// The phasing method: I delayed by 32, plus (USB) or minus (LSB) the Hilbert filter of Q.
#[derive(Clone, Debug, PartialEq)]
pub struct SsbDemodulator {
    state: ffi::SsbDemodulator,
    taps: [f32; SSB_TAPS],
    q_history: [f32; SSB_TAPS - 1],
    i_history: [f32; SSB_DELAY],
}

impl SsbDemodulator {
    /// For the upper sideband, or for the lower. Never refused.
    pub fn new(is_usb: bool) -> Self {
        let mut taps = [0.0; SSB_TAPS];
        let mut q_history = [0.0; SSB_TAPS - 1];
        let mut i_history = [0.0; SSB_DELAY];
        let done = unsafe {
            ffi::tl_ssb_new(
                is_usb,
                taps.as_mut_ptr(),
                taps.len(),
                q_history.as_mut_ptr(),
                q_history.len(),
                i_history.as_mut_ptr(),
                i_history.len(),
            )
        };
        debug_assert_eq!(done.refusal, 0);
        Self {
            state: done.state,
            taps,
            q_history,
            i_history,
        }
    }

    /// Demodulates interleaved pairs: `output` then holds an output for each and nothing else.
    ///
    /// Refused: `Limit`, `Length` for an odd input.
    pub fn process_into(&mut self, input: &[f32], output: &mut Vec<f32>) -> Result<()> {
        fill(output, input.len() / 2, |output| {
            let done = unsafe {
                ffi::tl_ssb_process_into(
                    self.state,
                    self.taps.as_ptr(),
                    self.taps.len(),
                    self.q_history.as_mut_ptr(),
                    self.q_history.len(),
                    self.i_history.as_mut_ptr(),
                    self.i_history.len(),
                    input.as_ptr(),
                    input.len(),
                    output.as_mut_ptr(),
                    output.len(),
                )
            };
            (done.refusal, done.count, ())
        })
    }

    /// The same into a new vector.
    pub fn process(&mut self, input: &[f32]) -> Result<Vec<f32>> {
        let mut output = Vec::new();
        self.process_into(input, &mut output)?;
        Ok(output)
    }
}
