// The kinds of work that are measured, each as the original does it and as the library does.

use crate::face::*;
use crate::original::{converter, dsp};
use std::hint::black_box;

/// Bytes or floats that go in, in a round.
pub const ELEMENTS: usize = 262_144;

pub trait Side {
    /// Puts in place what a round works on; not timed.
    fn ready(&mut self) {}
    /// Works it off in blocks of this many elements.
    fn run(&mut self, block: usize);
}

pub struct Work {
    pub name: &'static str,
    pub theirs: Box<dyn Side>,
    pub ours: Box<dyn Side>,
}

/// Floats from -1 to 1 without a pattern.
fn noise() -> Vec<f32> {
    let mut seed = 1u32;
    let mut next = || {
        seed = seed.wrapping_mul(1_664_525).wrapping_add(1_013_904_223);
        (seed >> 8) as f32 / 8_388_608.0 - 1.0
    };
    (0..ELEMENTS).map(|_| next()).collect()
}

fn bytes() -> Vec<u8> {
    noise().iter().map(|x| (x * 127.0 + 127.5) as u8).collect()
}

// ---- in place

struct InPlace<F> {
    source: Vec<f32>,
    data: Vec<f32>,
    call: F,
}

impl<F: FnMut(&mut [f32])> Side for InPlace<F> {
    fn ready(&mut self) {
        self.data.copy_from_slice(&self.source);
    }
    fn run(&mut self, block: usize) {
        self.data.chunks_mut(block).for_each(&mut self.call);
        black_box(&self.data);
    }
}

pub fn in_place(call: impl FnMut(&mut [f32]) + 'static) -> Box<dyn Side> {
    let source = noise();
    Box::new(InPlace { data: source.clone(), source, call })
}

// ---- into another slice, which has room for as many floats

struct Into<T, F> {
    source: Vec<T>,
    call: F,
}

impl<T, F: FnMut(&[T])> Side for Into<T, F> {
    fn run(&mut self, block: usize) {
        self.source.chunks(block).for_each(&mut self.call);
    }
}

pub fn from_floats(call: impl FnMut(&[f32]) + 'static) -> Box<dyn Side> {
    Box::new(Into { source: noise(), call })
}

fn from_bytes(call: impl FnMut(&[u8]) + 'static) -> Box<dyn Side> {
    Box::new(Into { source: bytes(), call })
}

pub fn room() -> Vec<f32> {
    vec![0.0; ELEMENTS]
}

// ---- the kinds

/// A call in place whose state goes in by value and comes back.
macro_rules! levels_of_ours {
    ($ours:expr, $call:ident) => {{
        let mut ours = unsafe { $ours }.state;
        in_place(move |data| {
            let done = unsafe { $call(ours, data.as_mut_ptr(), data.len()) };
            assert_eq!(done.refusal, 0);
            ours = done.state;
        })
    }};
}

macro_rules! levels {
    ($name:expr, $theirs:expr, $method:ident, $ours:expr, $call:ident) => {{
        let mut theirs = $theirs;
        Work {
            name: $name,
            theirs: in_place(move |data| theirs.$method(data)),
            ours: levels_of_ours!($ours, $call),
        }
    }};
}

/// One that puts an output for each pair into another slice.
macro_rules! demodulator_of_ours {
    ($ours:expr, $call:ident) => {{
        let mut ours = unsafe { $ours }.state;
        let mut b = room();
        from_floats(move |input| {
            let output = black_box(&mut b);
            let done = unsafe { $call(ours, input.as_ptr(), input.len(), output.as_mut_ptr(), output.len()) };
            assert_eq!(done.refusal, 0);
            ours = done.state;
        })
    }};
}

macro_rules! demodulator {
    ($name:expr, $theirs:expr, $ours:expr, $call:ident) => {{
        let mut theirs = $theirs;
        let mut a = Vec::new();
        Work {
            name: $name,
            theirs: from_floats(move |input| theirs.process_into(input, black_box(&mut a))),
            ours: demodulator_of_ours!($ours, $call),
        }
    }};
}

fn conversion(name: &'static str, theirs: fn(&[u8], &mut [f32]), ours: unsafe extern "C" fn(R<u8>, N, W<f32>, N) -> u32) -> Work {
    let (mut a, mut b) = (room(), room());
    Work {
        name,
        theirs: from_bytes(move |src| theirs(src, black_box(&mut a[..src.len()]))),
        ours: from_bytes(move |src| unsafe {
            assert_eq!(ours(src.as_ptr(), src.len(), black_box(&mut b).as_mut_ptr(), src.len()), 0);
        }),
    }
}

/// A decimator with what it is lent.
struct Lent {
    state: Decimator,
    taps: Vec<f32>,
    history: Vec<f32>,
}

impl Lent {
    fn new(factor: usize, cutoff: f32, taps: usize) -> Lent {
        let (mut taps, mut history) = (vec![0.0; taps], vec![0.0; taps - 1]);
        let done = unsafe { tl_decimator_new(factor, cutoff, taps.as_mut_ptr(), taps.len(), history.as_mut_ptr(), history.len()) };
        assert_eq!(done.refusal, 0);
        Lent { state: done.state, taps, history }
    }

    fn process(&mut self, input: &[f32], output: &mut [f32]) -> usize {
        let (taps, history) = (&self.taps, &mut self.history);
        let done = unsafe {
            tl_decimator_process_into(
                self.state,
                taps.as_ptr(),
                taps.len(),
                history.as_mut_ptr(),
                history.len(),
                input.as_ptr(),
                input.len(),
                output.as_mut_ptr(),
                output.len(),
            )
        };
        assert_eq!(done.refusal, 0);
        self.state = done.state;
        done.count
    }
}

fn cutoff(factor: usize) -> f32 {
    0.75 / factor as f32
}

fn decimator(name: &'static str, factor: usize, taps: usize) -> Work {
    let mut theirs = dsp::Decimator::new(factor, cutoff(factor), taps);
    let mut a = Vec::new();
    Work {
        name,
        theirs: from_floats(move |input| theirs.process_into(input, black_box(&mut a))),
        ours: decimator_of_ours(factor, taps),
    }
}

pub fn decimator_of_ours(factor: usize, taps: usize) -> Box<dyn Side> {
    let mut ours = Lent::new(factor, cutoff(factor), taps);
    let mut b = room();
    from_floats(move |input| {
        ours.process(input, black_box(&mut b));
    })
}

#[cfg(any(liquid, volk))]
pub fn fm_of_ours() -> Box<dyn Side> {
    demodulator_of_ours!(tl_fm_new(), tl_fm_process_into)
}

#[cfg(any(liquid, volk))]
pub fn nco_of_ours() -> Box<dyn Side> {
    levels_of_ours!(tl_nco_new(10_000.0, 240_000.0), tl_nco_mix)
}

fn hilbert() -> Work {
    let mut theirs = dsp::HilbertFilter::new(65);
    let (mut taps, mut history) = ([0.0f32; 65], [0.0f32; 64]);
    assert_eq!(unsafe { tl_hilbert_new(taps.as_mut_ptr(), 65, history.as_mut_ptr(), 64).refusal }, 0);
    let (mut a, mut b) = (Vec::new(), room());
    Work {
        name: "Hilbert, 65 taps",
        theirs: from_floats(move |input| theirs.process_into(input, black_box(&mut a))),
        ours: from_floats(move |input| {
            let output = black_box(&mut b);
            let done = unsafe { tl_hilbert_process_into(taps.as_ptr(), 65, history.as_mut_ptr(), 64, input.as_ptr(), input.len(), output.as_mut_ptr(), output.len()) };
            assert_eq!((done.refusal, done.count), (0, input.len()));
        }),
    }
}

fn ssb() -> Work {
    let mut theirs = dsp::SsbDemodulator::new(true);
    let (mut taps, mut q, mut i) = ([0.0f32; 65], [0.0f32; 64], [0.0f32; 32]);
    let made = unsafe { tl_ssb_new(true, taps.as_mut_ptr(), 65, q.as_mut_ptr(), 64, i.as_mut_ptr(), 32) };
    assert_eq!(made.refusal, 0);
    let (mut a, mut b) = (Vec::new(), room());
    Work {
        name: "SSB",
        theirs: from_floats(move |input| theirs.process_into(input, black_box(&mut a))),
        ours: from_floats(move |input| {
            let output = black_box(&mut b);
            let done = unsafe {
                tl_ssb_process_into(made.state, taps.as_ptr(), 65, q.as_mut_ptr(), 64, i.as_mut_ptr(), 32, input.as_ptr(), input.len(), output.as_mut_ptr(), output.len())
            };
            assert_eq!((done.refusal, done.count), (0, input.len() / 2));
        }),
    }
}

fn split_remover() -> Work {
    let mut theirs = dsp::DcRemover::new(0.01);
    let mut ours = unsafe { tl_dc_remover_new(0.01) }.state;
    Work {
        name: "DC remover, split",
        theirs: in_place(move |data| {
            let (i, q) = data.split_at_mut(data.len() / 2);
            theirs.process_split(i, q);
        }),
        ours: in_place(move |data| {
            let (i, q) = data.split_at_mut(data.len() / 2);
            let done = unsafe { tl_dc_remover_process_split(ours, i.as_mut_ptr(), i.len(), q.as_mut_ptr(), q.len()) };
            assert_eq!(done.refusal, 0);
            ours = done.state;
        }),
    }
}

/// The demo's path: bytes in, a tenth of as many pairs of sound out. The halves are taken apart and put together in the
/// same way for both.
fn pipeline() -> Work {
    fn split(samples: &[f32], i: &mut [f32], q: &mut [f32]) {
        for (pair, (i, q)) in samples.chunks_exact(2).zip(i.iter_mut().zip(q)) {
            (*i, *q) = (pair[0], pair[1]);
        }
    }
    fn join(i: &[f32], q: &[f32], pairs: &mut Vec<f32>) {
        pairs.clear();
        pairs.extend(i.iter().zip(q).flat_map(|(i, q)| [*i, *q]));
    }
    let theirs = {
        let (mut i_tenth, mut q_tenth, mut fm) = (dsp::Decimator::with_factor(10), dsp::Decimator::with_factor(10), dsp::FmDemodulator::new());
        let (mut samples, mut i, mut q) = (room(), room(), room());
        let (mut a, mut b, mut pairs, mut sound) = (Vec::new(), Vec::new(), Vec::new(), Vec::new());
        from_bytes(move |src| {
            let (n, half) = (src.len(), src.len() / 2);
            converter::convert(src, &mut samples[..n]);
            split(&samples[..n], &mut i[..half], &mut q[..half]);
            i_tenth.process_into(&i[..half], &mut a);
            q_tenth.process_into(&q[..half], &mut b);
            join(&a, &b, &mut pairs);
            fm.process_into(&pairs, black_box(&mut sound));
        })
    };
    let ours = {
        let (mut i_tenth, mut q_tenth) = (Lent::new(10, 0.075, 121), Lent::new(10, 0.075, 121));
        let mut fm = unsafe { tl_fm_new() }.state;
        let (mut samples, mut i, mut q, mut a, mut b, mut sound) = (room(), room(), room(), room(), room(), room());
        let mut pairs = Vec::new();
        from_bytes(move |src| {
            let (n, half) = (src.len(), src.len() / 2);
            assert_eq!(unsafe { tl_convert(src.as_ptr(), n, samples.as_mut_ptr(), n) }, 0);
            split(&samples[..n], &mut i[..half], &mut q[..half]);
            let m = i_tenth.process(&i[..half], &mut a);
            q_tenth.process(&q[..half], &mut b);
            join(&a[..m], &b[..m], &mut pairs);
            let output = black_box(&mut sound);
            let done = unsafe { tl_fm_process_into(fm, pairs.as_ptr(), pairs.len(), output.as_mut_ptr(), output.len()) };
            assert_eq!(done.refusal, 0);
            fm = done.state;
        })
    };
    Work { name: "demo: bytes to sound", theirs, ours }
}

pub fn all() -> Vec<Work> {
    vec![
        conversion("convert", converter::convert, tl_convert),
        conversion("convert_inverted", converter::convert_inverted, tl_convert_inverted),
        decimator("Decimator, factor 10, 121 taps", 10, 121),
        decimator("Decimator, factor 64, 769 taps", 64, 769),
        decimator("Decimator, factor 2, 25 taps", 2, 25),
        hilbert(),
        ssb(),
        demodulator!("FM", dsp::FmDemodulator::new(), tl_fm_new(), tl_fm_process_into),
        demodulator!("AM", dsp::AmDemodulator::new(), tl_am_new(), tl_am_process_into),
        levels!("DC remover, pairs", dsp::DcRemover::new(0.01), process, tl_dc_remover_new(0.01), tl_dc_remover_process),
        levels!("DC remover, mono", dsp::DcRemover::new(0.01), process_mono, tl_dc_remover_new(0.01), tl_dc_remover_process_mono),
        split_remover(),
        levels!("Agc", dsp::Agc::new(0.5, 0.01, 0.001), process, tl_agc_new(0.5, 0.01, 0.001), tl_agc_process),
        levels!(
            "AudioAgc",
            dsp::AudioAgc::new(0.7, 0.01, 0.001, 100.0, 48_000.0, 0.001),
            process,
            tl_audio_agc_new(0.7, 0.01, 0.001, 100.0, 48_000.0, 0.001),
            tl_audio_agc_process
        ),
        levels!("NCO mix", dsp::Nco::new(10_000.0, 240_000.0), mix, tl_nco_new(10_000.0, 240_000.0), tl_nco_mix),
        pipeline(),
    ]
}
