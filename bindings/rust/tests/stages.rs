//! The marked cases of document 01, refusals, and streams that are cut, through the Rust crate.

use threshlantern::converter::{convert, convert_inverted};
use threshlantern::dsp::*;
use threshlantern::{Error, LONGEST};

/// Some samples from -1 to 1, of a fixed generator.
fn noise(n: usize) -> Vec<f32> {
    let mut state = 1u32;
    let mut next = || {
        state = state.wrapping_mul(1_664_525).wrapping_add(1_013_904_223);
        (state >> 8) as f32 / (1 << 23) as f32 - 1.0
    };
    (0..n).map(|_| next()).collect()
}

/// What a stage gives for a stream that is cut into blocks of these lengths, again and again.
fn in_blocks(stream: &[f32], lengths: &[usize], mut call: impl FnMut(&[f32]) -> Vec<f32>) -> Vec<f32> {
    let (mut outputs, mut rest) = (Vec::new(), stream);
    for length in lengths.iter().cycle() {
        if rest.is_empty() {
            break;
        }
        let (block, behind) = rest.split_at(rest.len().min(*length));
        outputs.extend(call(block));
        rest = behind;
    }
    outputs
}

#[test]
fn bytes() {
    let mut dst = [7.0; 2];
    assert_eq!(convert(&[0], &mut dst[..1]), Err(Error::Length));
    assert_eq!(convert(&[0, 1], &mut dst[..1]), Err(Error::Length));
    assert_eq!(dst, [7.0; 2]);
    assert_eq!(convert(&[0, 255], &mut dst), Ok(()));
    assert_eq!(dst, [-1.0, 1.0]);
    assert_eq!(convert_inverted(&[0, 255], &mut dst), Ok(()));
    assert_eq!(dst, [-1.0, -1.0]);
    assert_eq!(convert(&[], &mut []), Ok(()));
    let many = LONGEST + 2;
    assert_eq!(convert(&vec![0; many], &mut vec![0.0; many]), Err(Error::Limit));
}

#[test]
fn lowpass() {
    let sum: f32 = design_lowpass(63, 0.05).unwrap().iter().sum();
    assert!((sum - 1.0).abs() < 1e-6);
    for taps in [0, 1, 2, 64, 771, usize::MAX] {
        assert_eq!(design_lowpass(taps, 0.05), Err(Error::Setting), "{taps} taps");
    }
    for cutoff in [0.0, 0.5, -1.0, f32::NAN, 1.0 / 1025.0] {
        assert_eq!(design_lowpass(3, cutoff), Err(Error::Setting), "cutoff {cutoff}");
    }
}

#[test]
fn decimator() {
    let mut d = Decimator {
        taps: vec![0.25, 0.5, 0.25],
        history: vec![0.0; 2],
        factor: 2,
        phase: 0,
    };
    assert_eq!(d.process(&[1.0, 2.0, 3.0, 4.0, 5.0]), Ok(vec![0.25, 2.0, 4.0]));
    assert_eq!((&d.history[..], d.phase), (&[4.0, 5.0][..], 1));
    assert_eq!(d.process(&[6.0]), Ok(vec![]));
    assert_eq!((&d.history[..], d.phase), (&[5.0, 6.0][..], 0));
    assert_eq!(d.process(&[7.0, 8.0]), Ok(vec![6.0]));
    let mut output = vec![9.0; 3];
    assert_eq!(d.process_into(&vec![0.0; LONGEST + 1], &mut output), Err(Error::Limit));
    assert_eq!((&output[..], &d.history[..]), (&[9.0; 3][..], &[7.0, 8.0][..]));
    assert_eq!(d.update_cutoff(0.5), Err(Error::Setting));
    assert_eq!(d.taps, [0.25, 0.5, 0.25]);
    assert_eq!(d.update_cutoff(0.25), Ok(()));
    assert_eq!(d.taps, design_lowpass(3, 0.25).unwrap());
    assert_eq!(d.history, [7.0, 8.0]);
    d.phase = 2;
    assert_eq!(d.reset(), Err(Error::Setting));
    d.phase = 1;
    assert_eq!(d.reset(), Ok(()));
    assert_eq!((&d.history[..], d.phase), (&[0.0, 0.0][..], 0));
    d.history.pop();
    assert_eq!(d.process(&[1.0]), Err(Error::Length));
    d.factor = 0;
    assert_eq!(d.process(&[1.0]), Err(Error::Setting));
}

#[test]
fn decimators_made() {
    let ten = Decimator::with_factor(10).unwrap();
    assert_eq!(
        (ten.taps.len(), ten.history.len(), ten.factor, ten.phase),
        (121, 120, 10, 0)
    );
    assert_eq!(ten, Decimator::new(10, 0.75 / 10.0, 121).unwrap());
    assert!(Decimator::with_factor(64).is_ok());
    for factor in [0, 1, 65, usize::MAX] {
        assert_eq!(Decimator::with_factor(factor), Err(Error::Setting), "factor {factor}");
        assert_eq!(Decimator::new(factor, 0.05, 63), Err(Error::Setting), "factor {factor}");
    }
}

#[test]
fn decimator_cut() {
    let stream = noise(5000);
    let once = Decimator::with_factor(10).unwrap().process(&stream).unwrap();
    let mut d = Decimator::with_factor(10).unwrap();
    assert_eq!(
        in_blocks(&stream, &[1, 3, 250, 7], |block| d.process(block).unwrap()),
        once
    );
}

#[test]
fn dc_remover() {
    assert_eq!(DcRemover::new(1.5), Err(Error::Setting));
    let mut mono = [1.0, f32::NAN, 1.0];
    assert_eq!(DcRemover::new(0.5).unwrap().process_mono(&mut mono), Ok(1));
    assert_eq!(mono, [0.5, 0.0, 0.25]);
    let mut dc = DcRemover::new(0.5).unwrap();
    let mut pairs = [1.0, 2.0, 3.0];
    assert_eq!(dc.process(&mut pairs), Err(Error::Length));
    assert_eq!(dc, DcRemover::new(0.5).unwrap());
    assert_eq!(dc.process(&mut pairs[..2]), Ok(0));
    assert_eq!(pairs, [0.5, 1.0, 3.0]);
    let (mut i, mut q) = ([1.0, 1.0], [2.0]);
    assert_eq!(DcRemover::new(0.5).unwrap().process_split(&mut i, &mut q), Ok(0));
    assert_eq!((i, q), ([0.5, 1.0], [1.0]));
}

#[test]
fn gain_controls() {
    assert_eq!(Agc::new(0.0, 0.5, 0.5), Err(Error::Setting));
    let mut agc = Agc::new(5.0, 1.0, 1.0).unwrap();
    let mut pairs = [3.0, 4.0, f32::INFINITY, 0.0];
    assert_eq!(agc.process(&mut pairs), Ok(1));
    assert!((pairs[0] - 3.0).abs() < 1e-5 && (pairs[1] - 4.0).abs() < 1e-5 && pairs[2..] == [0.0, 0.0]);
    // The field return: a floor of 0, which the original takes, and a silent sample.
    assert_eq!(AudioAgc::new(0.5, 0.1, 0.1, 100.0, 48_000.0, 0.0), Err(Error::Setting));
    let mut audio = AudioAgc::new(0.5, 0.1, 0.1, 100.0, 48_000.0, 0.01).unwrap();
    let mut samples = [0.0, f32::NAN, 1.0];
    assert_eq!(audio.process(&mut samples), Ok(1));
    assert!(samples[..2] == [0.0, 0.0] && samples[2] > 0.9 && samples[2] <= 1.0);
}

#[test]
fn fm() {
    let mut fm = FmDemodulator::new();
    assert_eq!(fm.process(&[1.0, 0.0, 0.0, 1.0]), Ok(vec![0.0, 0.5]));
    assert_eq!(FmDemodulator::default().process(&[-1.0, 0.0]), Ok(vec![1.0]));
    let mut output = vec![9.0];
    let before = fm;
    assert_eq!(fm.process_into(&[1.0], &mut output), Err(Error::Length));
    assert_eq!((fm, &output[..]), (before, &[9.0][..]));
    assert_eq!(fm.process_into(&[f32::NAN, 1.0], &mut output), Ok(1));
    assert_eq!((fm, &output[..]), (before, &[0.0][..]));
    assert_eq!(fm.with_deemphasis(0.0, 50e-6), Err(Error::Setting));
    assert!(fm.with_deemphasis(48_000.0, 50e-6).is_ok());
}

#[test]
fn am() {
    let mut am = AmDemodulator::new();
    assert_eq!(am.process(&[3.0, 4.0]), Ok(vec![0.0]));
    let mut output = Vec::new();
    assert_eq!(am.process_into(&[f32::INFINITY, 0.0], &mut output), Ok(1));
    assert_eq!(output, [0.0]);
    assert_eq!(AmDemodulator::default().process(&[1.0]), Err(Error::Length));
}

#[test]
fn demodulators_cut() {
    let stream = noise(4000);
    let once = FmDemodulator::new().process(&stream).unwrap();
    let mut fm = FmDemodulator::new();
    assert_eq!(
        in_blocks(&stream, &[2, 6, 500], |block| fm.process(block).unwrap()),
        once
    );
    let once = SsbDemodulator::new(true).process(&stream).unwrap();
    let mut ssb = SsbDemodulator::new(true);
    assert_eq!(
        in_blocks(&stream, &[2, 6, 500], |block| ssb.process(block).unwrap()),
        once
    );
}

#[test]
fn sidebands() {
    for taps in [0, 2, 64, 131, usize::MAX] {
        assert_eq!(HilbertFilter::new(taps), Err(Error::Setting), "{taps} taps");
    }
    let mut output = vec![9.0];
    let mut impulse = vec![0.0; 80];
    impulse[0] = 1.0;
    let mut hilbert = HilbertFilter::new(65).unwrap();
    assert_eq!(hilbert.process_into(&impulse, &mut output), Ok(()));
    // The taps from the last to the first: 0 at each second place, and odd about the middle.
    assert_eq!(output.len(), 80);
    assert!(output[31] > 0.6 && output[31] == -output[33] && output[32] == 0.0 && output[66] == 0.0);
    // I alone comes out 32 samples later, in both sidebands.
    for is_usb in [false, true] {
        let heard = SsbDemodulator::new(is_usb).process(&impulse).unwrap();
        assert!(heard.len() == 40 && heard[32] == 1.0 && heard[31] == 0.0);
    }
    assert_eq!(SsbDemodulator::new(true).process(&[1.0]), Err(Error::Length));
}

#[test]
fn oscillator() {
    assert_eq!(Nco::new(1.0, 0.0), Err(Error::Setting));
    assert_eq!(Nco::new(600.0, 1000.0), Err(Error::Setting));
    let mut nco = Nco::new(250.0, 1000.0).unwrap();
    let fresh = nco;
    let mut iq = [1.0, 0.0, 1.0, 0.0, 5.0];
    assert_eq!(nco.mix(&mut iq), Err(Error::Length));
    assert_eq!((nco, iq), (fresh, [1.0, 0.0, 1.0, 0.0, 5.0]));
    assert_eq!(nco.mix(&mut iq[..4]), Ok(()));
    assert!(iq[..2] == [1.0, 0.0] && iq[2].abs() < 1e-6 && (iq[3] + 1.0).abs() < 1e-6);
    assert_ne!(nco, fresh);
    assert_eq!(nco.reset(), Ok(()));
    assert_eq!(nco, fresh);
    assert_eq!(nco.set_freq(f64::NAN, 1000.0), Err(Error::Setting));
    assert_eq!(nco.set_freq(100.0, 1000.0), Ok(()));
}

/// Calls a stage's `process_into` on blocks of one length, of another, of none, and on one that is refused.
fn reuses(name: &str, mut process_into: impl FnMut(&[f32], &mut Vec<f32>) -> Result<(), Error>) {
    let stream = noise(4000);
    let mut output = Vec::new();
    process_into(&stream, &mut output).unwrap();
    let (capacity, place) = (output.capacity(), output.as_ptr());
    assert!(
        capacity < 2 * output.len() + 8,
        "{name}: {capacity} places for {}",
        output.len()
    );
    for n in (0..1000).map(|k| [4000, 2000, 20, 0][k % 4]) {
        let before = output.len();
        process_into(&stream[..n], &mut output).unwrap();
        assert!(
            output.len() <= n && (n == 0 || !output.is_empty()),
            "{name}: {} for {n} after {before}",
            output.len()
        );
        assert_eq!(
            (output.capacity(), output.as_ptr()),
            (capacity, place),
            "{name}: other memory"
        );
    }
    // An output with more places than needed is cut to the new samples; a refused call leaves what it holds.
    let mut other = vec![9.0; 5000];
    process_into(&stream, &mut other).unwrap();
    assert!(
        other.len() <= 4000 && !other.is_empty() && !other.contains(&9.0),
        "{name}: old samples"
    );
    for held in [vec![], vec![7.0; 3], noise(9000)] {
        let mut output = held.clone();
        assert_eq!(
            process_into(&vec![0.0; LONGEST + 2], &mut output),
            Err(Error::Limit),
            "{name}"
        );
        assert_eq!(output, held, "{name}: a refused call changed the output");
    }
}

#[test]
fn outputs_are_reused() {
    let mut decimator = Decimator::with_factor(10).unwrap();
    reuses("Decimator", |input, output| decimator.process_into(input, output));
    let mut fm = FmDemodulator::new();
    reuses("FmDemodulator", |input, output| {
        fm.process_into(input, output).map(|_| ())
    });
    let mut am = AmDemodulator::new();
    reuses("AmDemodulator", |input, output| {
        am.process_into(input, output).map(|_| ())
    });
    let mut hilbert = HilbertFilter::new(65).unwrap();
    reuses("HilbertFilter", |input, output| hilbert.process_into(input, output));
    let mut ssb = SsbDemodulator::new(true);
    reuses("SsbDemodulator", |input, output| ssb.process_into(input, output));
}

#[test]
fn errors_tell() {
    assert_eq!(Error::Room as u32, 5);
    assert_eq!(Error::Limit.to_string(), "more than 262,144 elements");
}
