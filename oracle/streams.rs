// Streams of samples: what a receiver hears, what only a fault makes, and random cuts of both.

use crate::patterns::{any_f32, edges_f32, power};
use crate::refusals::MOST;
use crate::rng::Rng;
use crate::steps::{cosine, sine};
use std::ops::Range;

/// A stream of one of these kinds; pairs of I and Q or single samples are all the same to it.
pub fn stream(rng: &mut Rng, n: usize) -> Vec<f32> {
    match rng.below(8) {
        0 => noise(rng, n, 1.0),
        1 => bytes(rng, n),
        2 => recording(rng, n),
        3 => quiet(rng, n),
        4 => {
            let size = power(60 + rng.below(68) as i64);
            noise(rng, n, size)
        }
        5 => (0..n).map(|_| hostile(rng)).collect(),
        6 => {
            let mut samples = noise(rng, n, 4.0);
            spoil(rng, &mut samples, 8);
            samples
        }
        _ => {
            let mut samples = recording(rng, n);
            let burst = n / 3..n / 2;
            spoil(rng, &mut samples[burst], 2);
            samples
        }
    }
}

/// A stream; one above the limit it is silence, which the stored sample of answers has room for.
pub fn stream_or_silence(rng: &mut Rng, n: usize) -> Vec<f32> {
    if n == MOST + 1 {
        vec![0.0; n]
    } else {
        stream(rng, n)
    }
}

/// Even noise up to `size`.
pub fn noise(rng: &mut Rng, n: usize, size: f64) -> Vec<f32> {
    (0..n).map(|_| (rng.unit() * size) as f32).collect()
}

/// What a dongle gives, converted.
fn bytes(rng: &mut Rng, n: usize) -> Vec<f32> {
    let byte = |rng: &mut Rng| (rng.next() as u8 as f32 - 127.5) / 127.5;
    (0..n).map(|_| byte(rng)).collect()
}

/// A carrier that drifts and fades, with pauses and a little noise: I and Q, one after the other.
pub fn recording(rng: &mut Rng, n: usize) -> Vec<f32> {
    let (turn, drift) = (rng.unit() * 0.3, rng.unit() * 0.2);
    let (slow, loud) = (power(-(rng.below(12) as i64)), rng.unit().abs());
    let floor = power(-4 - rng.below(12) as i64);
    let mut angle = rng.unit();
    let mut out = Vec::with_capacity(n + 1);
    while out.len() < n {
        let k = out.len() as f64;
        angle += turn + drift * sine(k * slow);
        // Below zero the carrier is off.
        let level = (loud * (0.6 + cosine(k * slow / 7.0))).max(0.0);
        for part in [cosine(angle), sine(angle)] {
            out.push((level * part + floor * rng.unit()) as f32);
        }
    }
    out.truncate(n);
    out
}

/// Zeros of both signs, subnormals and what is hardly above them.
fn quiet(rng: &mut Rng, n: usize) -> Vec<f32> {
    let size = power(-20 - rng.below(130) as i64);
    let one = |rng: &mut Rng| match rng.below(4) {
        0 => rng.pick(&[0.0, -0.0]),
        _ => (rng.unit() * size) as f32,
    };
    (0..n).map(|_| one(rng)).collect()
}

/// NaNs, infinities, the largest, the smallest, or any bits.
pub fn hostile(rng: &mut Rng) -> f32 {
    const FEW: [f32; 8] = [
        f32::NAN,
        f32::INFINITY,
        f32::NEG_INFINITY,
        f32::MAX,
        f32::MIN,
        1e30,
        -0.0,
        0.0,
    ];
    match rng.below(3) {
        0 => rng.pick(&FEW),
        1 => any_f32(rng),
        _ => edge(rng),
    }
}

fn edge(rng: &mut Rng) -> f32 {
    thread_local!(static EDGES: Vec<f32> = edges_f32());
    EDGES.with(|edges| rng.pick(edges))
}

/// One sample in `each` becomes hostile.
pub fn spoil(rng: &mut Rng, samples: &mut [f32], each: u64) {
    for sample in samples {
        if rng.below(each) == 0 {
            *sample = hostile(rng);
        }
    }
}

/// Mostly short, often at one of the places `near` or beside it.
pub fn length(rng: &mut Rng, near: &[usize], most: usize) -> usize {
    let n = match rng.below(4) {
        0 => rng.below(5),
        1 => rng.below(40),
        2 => (rng.pick(near) as i64 + rng.around(2)).max(0) as u64,
        _ => rng.below(most as u64 + 1),
    };
    (n as usize).min(most)
}

/// Blocks of whole steps that make up `n` samples, empty ones among them; `near` is a length, in
/// steps, that some of them have or nearly have. None is above the limit.
pub fn cuts(rng: &mut Rng, n: usize, width: usize, near: usize) -> Vec<Range<usize>> {
    let mut blocks = Vec::new();
    let mut from = 0;
    // Each stream has its own kind of block: a stream of single samples is wanted too.
    let kinds = 1 + rng.below(5);
    while from < n {
        let steps = match rng.below(kinds) {
            0 => rng.pick(&[1, 1, 2]),
            1 => rng.below(8),
            2 => (near as i64 + rng.around(2)).max(0) as u64,
            3 => rng.below(2 * near as u64 + 2),
            _ => rng.below((n - from) as u64 + 1),
        };
        let end = (from + steps as usize * width).min(n).min(from + MOST);
        blocks.push(from..end);
        from = end;
    }
    blocks
}

/// Every row of `len` out of `alphabet`.
pub fn rows(alphabet: &[f32], len: u32) -> impl Iterator<Item = Vec<f32>> + '_ {
    let base = alphabet.len();
    (0..base.pow(len)).map(move |mut row| {
        let next = |_| {
            let x = alphabet[row % base];
            row /= base;
            x
        };
        (0..len).map(next).collect()
    })
}
