//! The DC remover and the two gain controls, which work in place. Each call returns how many samples or pairs were
//! struck.

use crate::error::{accept, Result};
use crate::ffi;

/// Subtracts a running mean from each sample.
#[derive(Clone, Copy, Debug, PartialEq)]
pub struct DcRemover(ffi::DcRemover);

impl DcRemover {
    /// Means of 0. `alpha` is the weight of a new sample.
    ///
    /// Refused: `Setting` for an alpha outside 0 to 1.
    pub fn new(alpha: f32) -> Result<Self> {
        let done = unsafe { ffi::tl_dc_remover_new(alpha) };
        accept(done.refusal)?;
        Ok(Self(done.state))
    }

    /// Works on interleaved pairs. A pair with one bad half is struck whole.
    ///
    /// Refused: `Limit`, `Length` for an odd slice.
    pub fn process(&mut self, data: &mut [f32]) -> Result<usize> {
        self.take(unsafe { ffi::tl_dc_remover_process(self.0, data.as_mut_ptr(), data.len()) })
    }

    /// Works on samples, with I's mean.
    ///
    /// Refused: `Limit`.
    pub fn process_mono(&mut self, data: &mut [f32]) -> Result<usize> {
        self.take(unsafe { ffi::tl_dc_remover_process_mono(self.0, data.as_mut_ptr(), data.len()) })
    }

    /// Works on I and Q in two slices, to the end of the shorter; the rest of the longer stays.
    ///
    /// Refused: `Limit` for either slice.
    pub fn process_split(&mut self, i_buf: &mut [f32], q_buf: &mut [f32]) -> Result<usize> {
        self.take(unsafe {
            ffi::tl_dc_remover_process_split(self.0, i_buf.as_mut_ptr(), i_buf.len(), q_buf.as_mut_ptr(), q_buf.len())
        })
    }

    fn take(&mut self, done: ffi::DcRemoverDone) -> Result<usize> {
        accept(done.refusal)?;
        self.0 = done.state;
        Ok(done.struck)
    }
}

/// A gain that brings pairs to a target magnitude.
#[derive(Clone, Copy, Debug, PartialEq)]
pub struct Agc(ffi::Agc);

impl Agc {
    /// A gain of 1. `attack` says how fast it falls, `decay` how fast it rises.
    ///
    /// Refused: `Setting` for a target that is not finite and above 0, for attack or decay outside 0 to 1.
    pub fn new(target: f32, attack: f32, decay: f32) -> Result<Self> {
        let done = unsafe { ffi::tl_agc_new(target, attack, decay) };
        accept(done.refusal)?;
        Ok(Self(done.state))
    }

    /// Works on interleaved pairs.
    ///
    /// Refused: `Limit`, `Length` for an odd slice.
    pub fn process(&mut self, data: &mut [f32]) -> Result<usize> {
        let done = unsafe { ffi::tl_agc_process(self.0, data.as_mut_ptr(), data.len()) };
        accept(done.refusal)?;
        self.0 = done.state;
        Ok(done.struck)
    }
}

/// A gain control of audio that holds its gain for a while after a loud sample, and does not raise the noise floor.
/// Outputs are clamped to -1 to 1, except while the envelope is below the floor.
#[derive(Clone, Copy, Debug, PartialEq)]
pub struct AudioAgc(ffi::AudioAgc);

impl AudioAgc {
    /// A gain of 1. While the envelope is below `min_magnitude`, the floor, the gain goes back to 1.
    ///
    /// Refused: `Setting` for a target or floor that is not finite and above 0 (the original takes a floor of 0, and is
    /// silent for good after a silent sample), for attack or decay outside 0 to 1, and for a hang time that is not
    /// finite, below 0, or 16,777,216 samples or more.
    pub fn new(
        target: f32,
        attack: f32,
        decay: f32,
        hang_time_ms: f32,
        sample_rate: f32,
        min_magnitude: f32,
    ) -> Result<Self> {
        let done = unsafe { ffi::tl_audio_agc_new(target, attack, decay, hang_time_ms, sample_rate, min_magnitude) };
        accept(done.refusal)?;
        Ok(Self(done.state))
    }

    /// Works on samples.
    ///
    /// Refused: `Limit`.
    pub fn process(&mut self, data: &mut [f32]) -> Result<usize> {
        let done = unsafe { ffi::tl_audio_agc_process(self.0, data.as_mut_ptr(), data.len()) };
        accept(done.refusal)?;
        self.0 = done.state;
        Ok(done.struck)
    }
}
