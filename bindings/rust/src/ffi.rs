//! The structs that pass by value, and the functions, as in C. `tests/declared.py` at the top of the repository checks
//! these lines against the Rattle source.
//!
//! What the library asks of a caller: a length is right for its pointer, and no slice that is written overlaps another.
//! That is so for Rust slices, and this crate passes nothing else.

#[repr(C)]
#[derive(Clone, Copy, Debug, PartialEq)]
pub struct Decimator {
    pub factor: usize,
    pub phase: usize,
}

#[repr(C)]
#[derive(Clone, Copy, Debug, PartialEq)]
pub struct Decimated {
    pub refusal: u32,
    pub state: Decimator,
    pub count: usize,
}

#[repr(C)]
#[derive(Clone, Copy, Debug, PartialEq)]
pub struct DcRemover {
    pub avg_i: f32,
    pub avg_q: f32,
    pub alpha: f32,
}

#[repr(C)]
#[derive(Clone, Copy, Debug, PartialEq)]
pub struct DcRemoverDone {
    pub refusal: u32,
    pub state: DcRemover,
    pub struck: usize,
}

#[repr(C)]
#[derive(Clone, Copy, Debug, PartialEq)]
pub struct Agc {
    pub gain: f32,
    pub target: f32,
    pub attack: f32,
    pub decay: f32,
}

#[repr(C)]
#[derive(Clone, Copy, Debug, PartialEq)]
pub struct AgcDone {
    pub refusal: u32,
    pub state: Agc,
    pub struck: usize,
}

#[repr(C)]
#[derive(Clone, Copy, Debug, PartialEq)]
pub struct AudioAgc {
    pub gain: f32,
    pub target: f32,
    pub attack: f32,
    pub decay: f32,
    pub min_magnitude: f32,
    pub hang_time_samples: usize,
    pub hang_counter: usize,
    pub envelope: f32,
}

#[repr(C)]
#[derive(Clone, Copy, Debug, PartialEq)]
pub struct AudioAgcDone {
    pub refusal: u32,
    pub state: AudioAgc,
    pub struck: usize,
}

#[repr(C)]
#[derive(Clone, Copy, Debug, PartialEq)]
pub struct FmDemodulator {
    pub last_phase: f32,
    pub deemph_alpha: f32,
    pub deemph_state: f32,
}

#[repr(C)]
#[derive(Clone, Copy, Debug, PartialEq)]
pub struct FmDone {
    pub refusal: u32,
    pub state: FmDemodulator,
    pub count: usize,
    pub struck: usize,
}

#[repr(C)]
#[derive(Clone, Copy, Debug, PartialEq)]
pub struct AmDemodulator {
    pub dc_alpha: f32,
    pub dc_mean: f32,
    pub hp_alpha: f32,
    pub hp_state: f32,
}

#[repr(C)]
#[derive(Clone, Copy, Debug, PartialEq)]
pub struct AmDone {
    pub refusal: u32,
    pub state: AmDemodulator,
    pub count: usize,
    pub struck: usize,
}

#[repr(C)]
#[derive(Clone, Copy, Debug, PartialEq)]
pub struct HilbertDone {
    pub refusal: u32,
    pub count: usize,
}

#[repr(C)]
#[derive(Clone, Copy, Debug, PartialEq)]
pub struct SsbDemodulator {
    pub is_usb: bool,
}

#[repr(C)]
#[derive(Clone, Copy, Debug, PartialEq)]
pub struct SsbDone {
    pub refusal: u32,
    pub state: SsbDemodulator,
    pub count: usize,
}

#[repr(C)]
#[derive(Clone, Copy, Debug, PartialEq)]
pub struct Nco {
    pub phase: f64,
    pub phase_inc: f64,
    pub rotator_i: f64,
    pub rotator_q: f64,
}

#[repr(C)]
#[derive(Clone, Copy, Debug, PartialEq)]
pub struct NcoDone {
    pub refusal: u32,
    pub state: Nco,
}

extern "C" {
    pub fn tl_convert(src: *const u8, src_len: usize, dst: *mut f32, dst_len: usize) -> u32;
    pub fn tl_convert_inverted(src: *const u8, src_len: usize, dst: *mut f32, dst_len: usize) -> u32;
    pub fn tl_fm_new() -> FmDone;
    pub fn tl_fm_with_deemphasis(state: FmDemodulator, sample_rate: f32, tau: f32) -> FmDone;
    pub fn tl_fm_process_into(
        state: FmDemodulator,
        input: *const f32,
        input_len: usize,
        output: *mut f32,
        output_len: usize,
    ) -> FmDone;
    pub fn tl_am_new() -> AmDone;
    pub fn tl_am_process_into(
        state: AmDemodulator,
        input: *const f32,
        input_len: usize,
        output: *mut f32,
        output_len: usize,
    ) -> AmDone;
    pub fn tl_design_lowpass(taps: *mut f32, taps_len: usize, cutoff: f32) -> u32;
    pub fn tl_decimator_new(
        factor: usize,
        cutoff: f32,
        taps: *mut f32,
        taps_len: usize,
        history: *mut f32,
        history_len: usize,
    ) -> Decimated;
    pub fn tl_decimator_with_factor(
        factor: usize,
        taps: *mut f32,
        taps_len: usize,
        history: *mut f32,
        history_len: usize,
    ) -> Decimated;
    pub fn tl_decimator_process_into(
        state: Decimator,
        taps: *const f32,
        taps_len: usize,
        history: *mut f32,
        history_len: usize,
        input: *const f32,
        input_len: usize,
        output: *mut f32,
        output_len: usize,
    ) -> Decimated;
    pub fn tl_decimator_reset(
        state: Decimator,
        taps: *const f32,
        taps_len: usize,
        history: *mut f32,
        history_len: usize,
    ) -> Decimated;
    pub fn tl_decimator_update_cutoff(
        state: Decimator,
        cutoff: f32,
        taps: *mut f32,
        taps_len: usize,
        history: *const f32,
        history_len: usize,
    ) -> Decimated;
    pub fn tl_dc_remover_new(alpha: f32) -> DcRemoverDone;
    pub fn tl_dc_remover_process(state: DcRemover, data: *mut f32, data_len: usize) -> DcRemoverDone;
    pub fn tl_dc_remover_process_mono(state: DcRemover, data: *mut f32, data_len: usize) -> DcRemoverDone;
    pub fn tl_dc_remover_process_split(
        state: DcRemover,
        i: *mut f32,
        i_len: usize,
        q: *mut f32,
        q_len: usize,
    ) -> DcRemoverDone;
    pub fn tl_agc_new(target: f32, attack: f32, decay: f32) -> AgcDone;
    pub fn tl_agc_process(state: Agc, data: *mut f32, data_len: usize) -> AgcDone;
    pub fn tl_audio_agc_new(
        target: f32,
        attack: f32,
        decay: f32,
        hang_time_ms: f32,
        sample_rate: f32,
        min_magnitude: f32,
    ) -> AudioAgcDone;
    pub fn tl_audio_agc_process(state: AudioAgc, data: *mut f32, data_len: usize) -> AudioAgcDone;
    pub fn tl_nco_new(freq_hz: f64, sample_rate_hz: f64) -> NcoDone;
    pub fn tl_nco_set_freq(state: Nco, freq_hz: f64, sample_rate_hz: f64) -> NcoDone;
    pub fn tl_nco_mix(state: Nco, iq: *mut f32, iq_len: usize) -> NcoDone;
    pub fn tl_nco_reset(state: Nco) -> NcoDone;
    pub fn tl_hilbert_new(taps: *mut f32, taps_len: usize, history: *mut f32, history_len: usize) -> HilbertDone;
    pub fn tl_hilbert_process_into(
        taps: *const f32,
        taps_len: usize,
        history: *mut f32,
        history_len: usize,
        input: *const f32,
        input_len: usize,
        output: *mut f32,
        output_len: usize,
    ) -> HilbertDone;
    pub fn tl_ssb_new(
        is_usb: bool,
        taps: *mut f32,
        taps_len: usize,
        q_history: *mut f32,
        q_history_len: usize,
        i_history: *mut f32,
        i_history_len: usize,
    ) -> SsbDone;
    pub fn tl_ssb_process_into(
        state: SsbDemodulator,
        taps: *const f32,
        taps_len: usize,
        q_history: *mut f32,
        q_history_len: usize,
        i_history: *mut f32,
        i_history_len: usize,
        input: *const f32,
        input_len: usize,
        output: *mut f32,
        output_len: usize,
    ) -> SsbDone;
}
