//! The decimator.

use super::fill;
use super::lowpass::TOO_MANY;
use crate::error::{accept, Result};
use crate::ffi;

/// A lowpass filter over a stream that keeps each factor-th output.
///
/// The fields are public, as the original's are. The next call refuses one that breaks a rule: a phase at or above the
/// factor, a history that is not one shorter than the taps.
#[derive(Clone, Debug, PartialEq)]
pub struct Decimator {
    /// The filter, an odd number from 3 to 769.
    pub taps: Vec<f32>,
    /// The last samples, one less than there are taps.
    pub history: Vec<f32>,
    /// From 2 to 64.
    pub factor: usize,
    /// How many samples come before the next output, below the factor.
    pub phase: usize,
}

impl Decimator {
    /// A decimator with taps as [`design_lowpass`](super::design_lowpass) gives them.
    ///
    /// Refused: `Setting` for a factor outside 2 to 64, and for what `design_lowpass` refuses.
    pub fn new(factor: usize, cutoff: f32, num_taps: usize) -> Result<Self> {
        Self::made(num_taps, |taps, history| unsafe {
            ffi::tl_decimator_new(
                factor,
                cutoff,
                taps.as_mut_ptr(),
                taps.len(),
                history.as_mut_ptr(),
                history.len(),
            )
        })
    }

    /// The same with 12 x factor + 1 taps and a cutoff of 0.75 / factor.
    ///
    /// That cutoff is above the 0.5 / factor that the outputs can hold, so stations beside the channel come through.
    /// For channels that have neighbours take a lower one (the guide has what passes, in dB):
    ///
    /// ```
    /// # fn main() -> threshlantern::Result<()> {
    /// let narrow = threshlantern::dsp::Decimator::new(10, 0.4 / 10.0, 121)?;
    /// # assert_eq!((narrow.factor, narrow.history.len()), (10, 120));
    /// # Ok(())
    /// # }
    /// ```
    ///
    /// Refused: `Setting` for a factor outside 2 to 64.
    pub fn with_factor(factor: usize) -> Result<Self> {
        Self::made(factor.saturating_mul(12).saturating_add(1), |taps, history| unsafe {
            ffi::tl_decimator_with_factor(
                factor,
                taps.as_mut_ptr(),
                taps.len(),
                history.as_mut_ptr(),
                history.len(),
            )
        })
    }

    fn made(num_taps: usize, call: impl FnOnce(&mut [f32], &mut [f32]) -> ffi::Decimated) -> Result<Self> {
        let mut taps = vec![0.0; num_taps.min(TOO_MANY)];
        let mut history = vec![0.0; taps.len().saturating_sub(1)];
        let done = call(&mut taps, &mut history);
        accept(done.refusal)?;
        Ok(Self {
            taps,
            history,
            factor: done.state.factor,
            phase: done.state.phase,
        })
    }

    /// Filters a block: `output` then holds its outputs and nothing else. NaN and infinities pass to the outputs whose
    /// window they are in, and to no other.
    ///
    /// Refused: `Setting` and `Length` for fields that break their rules, `Limit`.
    pub fn process_into(&mut self, input: &[f32], output: &mut Vec<f32>) -> Result<()> {
        let state = self.state();
        self.phase = fill(output, input.len().div_ceil(self.factor.max(1)), |output| {
            let done = unsafe {
                ffi::tl_decimator_process_into(
                    state,
                    self.taps.as_ptr(),
                    self.taps.len(),
                    self.history.as_mut_ptr(),
                    self.history.len(),
                    input.as_ptr(),
                    input.len(),
                    output.as_mut_ptr(),
                    output.len(),
                )
            };
            (done.refusal, done.count, done.state.phase)
        })?;
        Ok(())
    }

    /// The same into a new vector.
    pub fn process(&mut self, input: &[f32]) -> Result<Vec<f32>> {
        let mut output = Vec::new();
        self.process_into(input, &mut output)?;
        Ok(output)
    }

    /// Clears history and phase, for a new stream.
    ///
    /// Refused: `Setting` and `Length` for fields that break their rules.
    pub fn reset(&mut self) -> Result<()> {
        let done = unsafe {
            ffi::tl_decimator_reset(
                self.state(),
                self.taps.as_ptr(),
                self.taps.len(),
                self.history.as_mut_ptr(),
                self.history.len(),
            )
        };
        accept(done.refusal)?;
        self.phase = done.state.phase;
        Ok(())
    }

    /// Designs the taps for another cutoff, and keeps history and phase.
    ///
    /// Refused: `Setting` for the cutoff, `Setting` and `Length` for fields that break their rules.
    pub fn update_cutoff(&mut self, cutoff: f32) -> Result<()> {
        accept(
            unsafe {
                ffi::tl_decimator_update_cutoff(
                    self.state(),
                    cutoff,
                    self.taps.as_mut_ptr(),
                    self.taps.len(),
                    self.history.as_ptr(),
                    self.history.len(),
                )
            }
            .refusal,
        )
    }

    fn state(&self) -> ffi::Decimator {
        ffi::Decimator {
            factor: self.factor,
            phase: self.phase,
        }
    }
}
