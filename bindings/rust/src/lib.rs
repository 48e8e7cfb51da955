//! Threshlantern: a proved signal path for rescue-channel recorders.
//!
//! The types and functions have the names of rtlsdr-next's `dsp.rs` and `converter.rs`, which the library follows bit
//! by bit. What differs: a call on which the original would panic, or that would leave NaN in a stage for good, is
//! refused. So every call that can be refused returns a [`Result`]. A user of the original changes the `use` line and
//! handles the errors.
//!
//! ```
//! use threshlantern::converter::convert;
//! use threshlantern::dsp::{Decimator, FmDemodulator};
//!
//! # fn main() -> threshlantern::Result<()> {
//! let bytes = [0u8, 255, 128, 127]; // from the dongle: I, Q, I, Q
//! let mut iq = [0.0; 4];
//! convert(&bytes, &mut iq)?;
//! let (i, q) = ([iq[0], iq[2]], [iq[1], iq[3]]);
//! let (mut i_half, mut q_half) = (Decimator::with_factor(10)?, Decimator::with_factor(10)?);
//! let (i, q) = (i_half.process(&i)?, q_half.process(&q)?);
//! let pairs: Vec<f32> = i.into_iter().zip(q).flat_map(|(i, q)| [i, q]).collect();
//! let sound = FmDemodulator::new().process(&pairs)?;
//! assert_eq!(sound.len(), 1);
//! # Ok(())
//! # }
//! ```
//!
//! **Refusals.** [`Error`] says why. A refused call changes nothing, neither the stage nor a buffer: it costs its block
//! and no more. Inputs have at most [`LONGEST`] elements; cut a longer one into several calls, which gives the same
//! outputs (only those of [`dsp::Nco`] differ, in their last bits).
//!
//! **Struck samples.** In [`dsp::DcRemover`], [`dsp::Agc`], [`dsp::AudioAgc`], [`dsp::FmDemodulator`] and
//! [`dsp::AmDemodulator`] a sample or pair that would store or put out NaN or an infinity gives 0.0 and leaves the
//! stage as it was. Their calls return how many were struck: log it whenever it is not 0.
//!
//! **What is proved.** Every function of the archive ends, stays within its slices, and returns what its definition
//! says, for every input. This crate is a thin layer above it, which is not proved but tested: it owns the buffers and
//! turns numbers into errors. `docs/GUIDE.md` describes every stage.
//!
//! **Linking.** The crate links `libthreshlantern.a` from `build/` at the top of the repository, where `make lib` puts
//! it, or from the folder that the environment variable `THRESHLANTERN_LIB` names (a relative name counts from this
//! crate's folder). Without it, or with one for another machine, `cargo check` and `cargo doc` work; a build warns and
//! stops.

pub mod converter;
pub mod dsp;
mod error;
mod ffi;

pub use error::{Error, Result};

/// The most elements of an input, or of a slice that is worked on in place: 131,072 pairs.
pub const LONGEST: usize = 262_144;

// The guide's Rust is compiled by `cargo test`.
#[cfg(doctest)]
#[doc = include_str!("../../../docs/GUIDE.md")]
struct Guide;
