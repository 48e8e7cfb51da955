// The demo's pipeline by the Rust original, the whole input in one call to each stage. `tests/demo.sh` builds it and
// holds the demo to it.

#[allow(dead_code)]
mod original;
#[allow(dead_code)]
mod steps;

use original::converter::convert;
use original::dsp::{Decimator, FmDemodulator};
use std::io::{stdin, stdout, Read, Result, Write};

/// The half of interleaved pairs that starts at `first`, filtered and thinned out by ten.
fn half(samples: &[f32], first: usize) -> Vec<f32> {
    let half: Vec<f32> = samples.iter().skip(first).step_by(2).copied().collect();
    Decimator::with_factor(10).process(&half)
}

fn main() -> Result<()> {
    let mut bytes = Vec::new();
    stdin().read_to_end(&mut bytes)?;
    bytes.truncate(bytes.len() / 2 * 2);
    let mut samples = vec![0.0; bytes.len()];
    convert(&bytes, &mut samples);
    let pairs: Vec<f32> = half(&samples, 0)
        .into_iter()
        .zip(half(&samples, 1))
        .flat_map(|(i, q)| [i, q])
        .collect();
    let heard = FmDemodulator::new().process(&pairs);
    let heard: Vec<u8> = heard.iter().flat_map(|x| x.to_le_bytes()).collect();
    stdout().write_all(&heard)
}
