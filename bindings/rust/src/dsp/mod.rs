//! The stages, under the names of the original's `dsp.rs`.

mod decimator;
mod demodulators;
mod levels;
mod lowpass;
mod nco;
mod sidebands;

pub use decimator::Decimator;
pub use demodulators::{AmDemodulator, FmDemodulator};
pub use levels::{Agc, AudioAgc, DcRemover};
pub use lowpass::design_lowpass;
pub use nco::Nco;
pub use sidebands::{HilbertFilter, SsbDemodulator};

use crate::error::{accept, Result};
use crate::LONGEST;

/// Runs a call that writes up to `room` outputs and returns its number, how many it wrote and what else it gave.
/// `output` then holds them and nothing else, in the memory that it has where that is enough. Refused, it stays as it
/// was, since a refused call changes no place of a slice.
fn fill<T>(output: &mut Vec<f32>, room: usize, call: impl FnOnce(&mut [f32]) -> (u32, usize, T)) -> Result<T> {
    let held = output.len();
    // More than the limit is refused, so room for more is not wanted.
    let room = room.min(LONGEST);
    if held < room {
        output.resize(room, 0.0);
    }
    let (refusal, count, given) = call(&mut output[..room]);
    let accepted = accept(refusal);
    output.truncate(if accepted.is_ok() { count } else { held });
    accepted.map(|()| given)
}
