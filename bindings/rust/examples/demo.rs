//! The demo's pipeline: pairs of bytes on standard input, f32 little-endian of sound on standard output.
//!
//!     cargo run --offline --release --example demo < capture.cu8 > sound.f32
//!
//! A read or write that fails gives a line on standard error and status 1. (A closed descriptor does not fail in Rust,
//! which opens /dev/null in its place before `main`.)

use std::io::{self, Read, Write};
use std::process::ExitCode;
use threshlantern::converter::convert;
use threshlantern::dsp::{Decimator, FmDemodulator};

const BLOCK: usize = 16_384;

#[derive(Clone)]
struct Receiver {
    i: Decimator,
    q: Decimator,
    fm: FmDemodulator,
}

impl Receiver {
    fn new() -> threshlantern::Result<Self> {
        Ok(Self {
            i: Decimator::with_factor(10)?,
            q: Decimator::with_factor(10)?,
            fm: FmDemodulator::new(),
        })
    }

    /// The sound of whole pairs of bytes. After an error the receiver goes on as if the block had not been there.
    fn receive(&mut self, bytes: &[u8]) -> threshlantern::Result<Vec<f32>> {
        let mut samples = vec![0.0; bytes.len()];
        convert(bytes, &mut samples)?; // Limit: above threshlantern::LONGEST bytes. Length: an odd number.
        let (i, q): (Vec<f32>, Vec<f32>) = samples.chunks_exact(2).map(|pair| (pair[0], pair[1])).unzip();
        let mut next = self.clone(); // kept only when every call was accepted: I and Q move together or not at all
        let (i, q) = (next.i.process(&i)?, next.q.process(&q)?);
        let pairs: Vec<f32> = i.into_iter().zip(q).flat_map(|(i, q)| [i, q]).collect();
        let sound = next.fm.process(&pairs)?;
        *self = next;
        Ok(sound)
    }
}

/// Runs to the end of the input. An error is what could not be done, and why.
fn run() -> Result<(), String> {
    let mut receiver = Receiver::new().map_err(|error| format!("receiver: {error}"))?;
    let (mut input, mut output) = (io::stdin().lock(), io::stdout().lock());
    loop {
        // Each block but the last is full, so only the last can be odd.
        let mut block = Vec::new();
        let read = (&mut input).take(BLOCK as u64).read_to_end(&mut block);
        let last = read.map_err(|error| format!("read: {error}"))? < BLOCK;
        if block.len() % 2 == 1 {
            block.pop();
            eprintln!("odd input");
        }
        // A refusal costs its block and no more: it is no reason to stop.
        let sound = receiver.receive(&block).unwrap_or_else(|error| {
            eprintln!("a block of {} bytes: {error}", block.len());
            Vec::new()
        });
        let sound: Vec<u8> = sound.into_iter().flat_map(f32::to_le_bytes).collect();
        let written = output.write_all(&sound).and_then(|()| output.flush());
        written.map_err(|error| format!("write: {error}"))?;
        if last {
            return Ok(());
        }
    }
}

fn main() -> ExitCode {
    match run() {
        Ok(()) => ExitCode::SUCCESS,
        Err(error) => {
            eprintln!("{error}");
            ExitCode::FAILURE
        }
    }
}
