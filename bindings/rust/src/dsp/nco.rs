//! The oscillator.

use crate::error::{accept, Result};
use crate::ffi;

/// Shifts the spectrum of pairs down by its frequency: a station at `+freq_hz` comes to 0.
///
/// Each call computes sine and cosine anew at its start, and takes at most one turn off the phase at its end. So the
/// same stream cut elsewhere differs in its last bits, as it does in the original.
#[derive(Clone, Copy, Debug, PartialEq)]
pub struct Nco(ffi::Nco);

impl Nco {
    /// Shifts down by `freq_hz`, and up where that is negative.
    ///
    /// Refused: `Setting` for a frequency that is not finite, for a rate that is not finite and above 0, and for an
    /// increment, as computed, outside -PI to PI.
    pub fn new(freq_hz: f64, sample_rate_hz: f64) -> Result<Self> {
        let done = unsafe { ffi::tl_nco_new(freq_hz, sample_rate_hz) };
        accept(done.refusal)?;
        Ok(Self(done.state))
    }

    /// Changes the frequency and keeps the phase. Refused as [`Nco::new`].
    pub fn set_freq(&mut self, freq_hz: f64, sample_rate_hz: f64) -> Result<()> {
        self.take(unsafe { ffi::tl_nco_set_freq(self.0, freq_hz, sample_rate_hz) })
    }

    /// Mixes interleaved pairs in place. NaN and infinities pass.
    ///
    /// Refused: `Limit`, `Length` for an odd slice.
    pub fn mix(&mut self, iq: &mut [f32]) -> Result<()> {
        self.take(unsafe { ffi::tl_nco_mix(self.0, iq.as_mut_ptr(), iq.len()) })
    }

    /// Sets the phase to 0.
    pub fn reset(&mut self) -> Result<()> {
        self.take(unsafe { ffi::tl_nco_reset(self.0) })
    }

    fn take(&mut self, done: ffi::NcoDone) -> Result<()> {
        accept(done.refusal)?;
        self.0 = done.state;
        Ok(())
    }
}
