// The C face, as far as it is measured.

pub type R<T> = *const T;
pub type W<T> = *mut T;
pub type N = usize;

/// What every call answers: its refusal, its state and two counts at most.
macro_rules! records {
    ($($name:ident { $($field:ident: $type:ty),* } -> $done:ident { $($count:ident),* };)+) => {
        $(
            #[repr(C)]
            #[derive(Clone, Copy)]
            pub struct $name {
                $(pub $field: $type,)*
            }

            #[repr(C)]
            #[derive(Clone, Copy)]
            pub struct $done {
                pub refusal: u32,
                pub state: $name,
                $(pub $count: usize,)*
            }
        )+
    };
}

records! {
    Decimator { factor: usize, phase: usize } -> Decimated { count };
    DcRemover { avg_i: f32, avg_q: f32, alpha: f32 } -> DcRemoved { struck };
    Agc { gain: f32, target: f32, attack: f32, decay: f32 } -> AgcDone { struck };
    AudioAgc {
        gain: f32, target: f32, attack: f32, decay: f32, min_magnitude: f32,
        hang_time_samples: usize, hang_counter: usize, envelope: f32
    } -> AudioAgcDone { struck };
    Fm { last_phase: f32, deemph_alpha: f32, deemph_state: f32 } -> FmDone { count, struck };
    Am { dc_alpha: f32, dc_mean: f32, hp_alpha: f32, hp_state: f32 } -> AmDone { count, struck };
    Ssb { is_usb: bool } -> SsbDone { count };
    Nco { phase: f64, phase_inc: f64, rotator_i: f64, rotator_q: f64 } -> Mixed {};
}

#[repr(C)]
pub struct HilbertDone {
    pub refusal: u32,
    pub count: usize,
}

#[link(name = "threshlantern", kind = "static")]
extern "C" {
    pub fn tl_convert(src: R<u8>, n: N, dst: W<f32>, m: N) -> u32;
    pub fn tl_convert_inverted(src: R<u8>, n: N, dst: W<f32>, m: N) -> u32;
    pub fn tl_decimator_new(factor: N, cutoff: f32, taps: W<f32>, n: N, history: W<f32>, m: N) -> Decimated;
    pub fn tl_decimator_process_into(state: Decimator, taps: R<f32>, n: N, history: W<f32>, m: N, input: R<f32>, i: N, output: W<f32>, o: N) -> Decimated;
    pub fn tl_dc_remover_new(alpha: f32) -> DcRemoved;
    pub fn tl_dc_remover_process(state: DcRemover, data: W<f32>, n: N) -> DcRemoved;
    pub fn tl_dc_remover_process_mono(state: DcRemover, data: W<f32>, n: N) -> DcRemoved;
    pub fn tl_dc_remover_process_split(state: DcRemover, i: W<f32>, n: N, q: W<f32>, m: N) -> DcRemoved;
    pub fn tl_agc_new(target: f32, attack: f32, decay: f32) -> AgcDone;
    pub fn tl_agc_process(state: Agc, data: W<f32>, n: N) -> AgcDone;
    pub fn tl_audio_agc_new(target: f32, attack: f32, decay: f32, ms: f32, rate: f32, floor: f32) -> AudioAgcDone;
    pub fn tl_audio_agc_process(state: AudioAgc, data: W<f32>, n: N) -> AudioAgcDone;
    pub fn tl_fm_new() -> FmDone;
    pub fn tl_fm_process_into(state: Fm, input: R<f32>, i: N, output: W<f32>, o: N) -> FmDone;
    pub fn tl_am_new() -> AmDone;
    pub fn tl_am_process_into(state: Am, input: R<f32>, i: N, output: W<f32>, o: N) -> AmDone;
    pub fn tl_hilbert_new(taps: W<f32>, n: N, history: W<f32>, m: N) -> HilbertDone;
    pub fn tl_hilbert_process_into(taps: R<f32>, n: N, history: W<f32>, m: N, input: R<f32>, i: N, output: W<f32>, o: N) -> HilbertDone;
    pub fn tl_ssb_new(is_usb: bool, taps: W<f32>, n: N, q: W<f32>, a: N, i: W<f32>, b: N) -> SsbDone;
    pub fn tl_ssb_process_into(state: Ssb, taps: R<f32>, n: N, q: W<f32>, a: N, i: W<f32>, b: N, input: R<f32>, c: N, output: W<f32>, o: N) -> SsbDone;
    pub fn tl_nco_new(freq: f64, rate: f64) -> Mixed;
    pub fn tl_nco_mix(state: Nco, iq: W<f32>, n: N) -> Mixed;
}
