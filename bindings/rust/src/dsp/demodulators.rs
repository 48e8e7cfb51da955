//! The FM and AM demodulators: one output for each pair of I and Q, also for a struck one.

use super::fill;
use crate::error::{accept, Result};
use crate::ffi;

/// The angle from pair to pair as a fraction of PI, from -1 to 1.
#[derive(Clone, Copy, Debug, PartialEq)]
pub struct FmDemodulator(ffi::FmDemodulator);

impl FmDemodulator {
    /// Without de-emphasis. Never refused.
    pub fn new() -> Self {
        Self(unsafe { ffi::tl_fm_new() }.state)
    }

    /// With a de-emphasis of `tau` seconds, as 50e-6.
    ///
    /// Refused: `Setting` for a rate that is not finite and above 0, for a tau that is not finite or below 0, and for a
    /// rate so small that 1 / rate is infinite.
    pub fn with_deemphasis(self, sample_rate: f32, tau: f32) -> Result<Self> {
        let done = unsafe { ffi::tl_fm_with_deemphasis(self.0, sample_rate, tau) };
        accept(done.refusal)?;
        Ok(Self(done.state))
    }

    /// Demodulates interleaved pairs: `output` then holds an output for each and nothing else. Returns how many pairs
    /// were struck, which are those with a NaN.
    ///
    /// Refused: `Limit`, `Length` for an odd input.
    pub fn process_into(&mut self, input: &[f32], output: &mut Vec<f32>) -> Result<usize> {
        let done = fill(output, input.len() / 2, |output| {
            let done = unsafe {
                ffi::tl_fm_process_into(self.0, input.as_ptr(), input.len(), output.as_mut_ptr(), output.len())
            };
            (done.refusal, done.count, done)
        })?;
        self.0 = done.state;
        Ok(done.struck)
    }

    /// The same into a new vector.
    pub fn process(&mut self, input: &[f32]) -> Result<Vec<f32>> {
        let mut output = Vec::new();
        self.process_into(input, &mut output)?;
        Ok(output)
    }
}

impl Default for FmDemodulator {
    fn default() -> Self {
        Self::new()
    }
}

/// The magnitude of each pair, less its running mean, less the running mean of what is left.
#[derive(Clone, Copy, Debug, PartialEq)]
pub struct AmDemodulator(ffi::AmDemodulator);

impl AmDemodulator {
    /// With the original's two alphas. Never refused.
    pub fn new() -> Self {
        Self(unsafe { ffi::tl_am_new() }.state)
    }

    /// Demodulates interleaved pairs: `output` then holds an output for each and nothing else. Returns how many pairs
    /// were struck, which are those whose magnitude is not finite, or would overflow what is stored.
    ///
    /// Refused: `Limit`, `Length` for an odd input.
    pub fn process_into(&mut self, input: &[f32], output: &mut Vec<f32>) -> Result<usize> {
        let done = fill(output, input.len() / 2, |output| {
            let done = unsafe {
                ffi::tl_am_process_into(self.0, input.as_ptr(), input.len(), output.as_mut_ptr(), output.len())
            };
            (done.refusal, done.count, done)
        })?;
        self.0 = done.state;
        Ok(done.struck)
    }

    /// The same into a new vector.
    pub fn process(&mut self, input: &[f32]) -> Result<Vec<f32>> {
        let mut output = Vec::new();
        self.process_into(input, &mut output)?;
        Ok(output)
    }
}

impl Default for AmDemodulator {
    fn default() -> Self {
        Self::new()
    }
}
