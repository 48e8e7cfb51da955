/* The marked cases of document 01 and some refusals, through the C face: every stage once, each `_at` form too. Built
 * and run by tests/faces.sh. It says how many held, and fails where one does not. */
#include <math.h>
#include <stdio.h>
#include <string.h>

#include "threshlantern.h"

static int held, broken;

static void expect(bool true_, const char *what) {
    held += true_;
    if (!true_) {
        broken++;
        printf("check.c: does not hold: %s\n", what);
    }
}

#define EXPECT(fact) expect((fact), #fact)

static void numbers(void) {
    EXPECT(tl_sqrt(25.0f) == 5.0f);
    EXPECT(tl_sqrt(2.0f) == 1.41421354f);
    EXPECT(tl_narrow(0.1) == 0.1f && tl_narrow_alone(0.1) == 0.1f);
    EXPECT(tl_widen(0.5f) == 0.5 && tl_whole(2.9f) == 2);
    EXPECT(tl_finite_f32(1.0f) && !tl_finite_f32(INFINITY) && !tl_finite_f64((double)NAN));
    EXPECT(tl_magnitude_f32(-2.0f) == 2.0f && tl_magnitude_f64(-2.0) == 2.0);
    EXPECT(tl_sine(0.0) == 0.0 && tl_cosine(0.0) == 1.0 && tl_arctangent(0.0, -1.0) > 3.14159);
    EXPECT(tl_sine_f32(0.0f) == 0.0f && tl_cosine_f32(0.0f) == 1.0f && tl_arctangent_f32(1.0f, 0.0f) > 1.57f);
}

static void conversions(void) {
    const uint8_t src[2] = {0, 255};
    float dst[2] = {7, 7};
    EXPECT(tl_convert(src, 1, dst, 1) == TL_LENGTH && dst[0] == 7);
    EXPECT(tl_convert(src, 2, dst, 2) == TL_NONE && dst[0] == -1 && dst[1] == 1);
    EXPECT(tl_convert_inverted(src, 2, dst, 2) == TL_NONE && dst[0] == -1 && dst[1] == -1);
}

static void decimator(void) {
    float taps[3] = {0.25f, 0.5f, 0.25f}, history[2] = {0, 0}, output[4] = {9, 9, 9, 9};
    const float input[8] = {1, 2, 3, 4, 5, 6, 7, 8};
    tl_decimator d = {2, 0}, zeros;
    size_t count = 99;
    EXPECT(tl_decimator_process_into_at(&d, taps, 3, history, 2, input, 5, output, 2, &count) == TL_ROOM);
    EXPECT(count == 0 && d.phase == 0 && output[0] == 9);
    EXPECT(tl_decimator_process_into_at(&d, taps, 3, history, 2, input, 5, output, 4, &count) == TL_NONE);
    EXPECT(count == 3 && output[0] == 0.25f && output[1] == 2 && output[2] == 4 && output[3] == 9);
    EXPECT(history[0] == 4 && history[1] == 5 && d.phase == 1);
    EXPECT(tl_decimator_process_into_at(&d, taps, 3, history, 2, input + 5, 1, output, 4, &count) == TL_NONE);
    EXPECT(count == 0 && history[0] == 5 && history[1] == 6 && d.phase == 0);
    EXPECT(tl_decimator_process_into_at(&d, taps, 3, history, 2, input + 6, 2, output, 4, NULL) == TL_NONE);
    EXPECT(output[0] == 6 && d.phase == 0);
    EXPECT(tl_decimator_update_cutoff_at(&d, 0.5f, taps, 3, history, 2) == TL_SETTING && taps[1] == 0.5f);
    EXPECT(tl_decimator_update_cutoff_at(&d, 0.25f, taps, 3, history, 2) == TL_NONE && taps[1] != 0.5f);
    EXPECT(tl_decimator_reset_at(&d, taps, 3, history, 2) == TL_NONE && history[1] == 0);
    EXPECT(tl_decimator_new_at(&d, 1, 0.25f, taps, 3, history, 2) == TL_SETTING && d.factor == 2);
    EXPECT(tl_decimator_new_at(&d, 3, 0.25f, taps, 3, history, 2) == TL_NONE && d.factor == 3);
    zeros = tl_decimator_new(1, 0.25f, taps, 3, history, 2).state;
    EXPECT(zeros.factor == 0);
    EXPECT(tl_decimator_process_into(zeros, taps, 3, history, 2, input, 1, output, 4).refusal == TL_SETTING);
    EXPECT(tl_decimator_with_factor_at(&d, 2, taps, 3, history, 2) == TL_LENGTH);
    EXPECT(tl_design_lowpass(taps, 2, 0.25f) == TL_SETTING && tl_design_lowpass(taps, 3, 0.25f) == TL_NONE);
}

/* The guide's cutoff for channels with neighbours. */
static void narrow_channel(void) {
    float taps[121], history[120], wide[121];
    tl_decimator state;
    EXPECT(tl_decimator_with_factor_at(&state, 10, wide, 121, history, 120) == TL_NONE);
    EXPECT(tl_decimator_new_at(&state, 10, 0.4f / 10, taps, 121, history, 120) == TL_NONE && state.factor == 10);
    EXPECT(fabsf(taps[60] - 0.08f) < 0.001f && fabsf(wide[60] - 0.15f) < 0.001f);
    EXPECT(tl_decimator_update_cutoff_at(&state, 0.4f / 10, wide, 121, history, 120) == TL_NONE);
    EXPECT(memcmp(taps, wide, sizeof taps) == 0);
}

static void levels(void) {
    float mono[3] = {1, NAN, 1}, pairs[2] = {3, 4}, i[2] = {1, 1}, q[1] = {1};
    size_t struck = 99;
    tl_dc_remover dc = {0, 0, 0};
    tl_agc agc;
    tl_audio_agc audio;
    EXPECT(tl_dc_remover_new_at(&dc, 2.0f) == TL_SETTING && dc.alpha == 0);
    EXPECT(tl_dc_remover_new_at(&dc, 0.5f) == TL_NONE && dc.alpha == 0.5f);
    EXPECT(tl_dc_remover_process_mono_at(&dc, mono, 3, &struck) == TL_NONE && struck == 1);
    EXPECT(mono[0] == 0.5f && mono[1] == 0 && mono[2] == 0.25f);
    EXPECT(tl_dc_remover_process_at(&dc, pairs, 1, &struck) == TL_LENGTH && pairs[0] == 3);
    EXPECT(tl_dc_remover_new_at(&dc, 0.5f) == TL_NONE);
    EXPECT(tl_dc_remover_process_at(&dc, pairs, 2, NULL) == TL_NONE && pairs[0] == 1.5f && pairs[1] == 2);
    EXPECT(tl_dc_remover_new_at(&dc, 0.5f) == TL_NONE);
    EXPECT(tl_dc_remover_process_split_at(&dc, i, 2, q, 1, &struck) == TL_NONE && i[0] == 0.5f && i[1] == 1);
    /* The zeros of refused making calls: a DC remover's take nothing off, those of the gain controls are refused. */
    mono[0] = 3, mono[1] = 4;
    EXPECT(tl_dc_remover_process_mono(tl_dc_remover_new(2).state, mono, 2).refusal == TL_NONE);
    EXPECT(mono[0] == 3 && mono[1] == 4);
    EXPECT(tl_agc_process(tl_agc_new(0, 1, 1).state, mono, 2).refusal == TL_SETTING);
    EXPECT(tl_audio_agc_process(tl_audio_agc_new(0, 1, 1, 1, 1, 1).state, mono, 2).refusal == TL_SETTING);
    dc.avg_q = NAN;
    EXPECT(tl_dc_remover_process_mono_at(&dc, mono, 3, NULL) == TL_STATE);
    EXPECT(tl_agc_new_at(&agc, 0, 1, 1) == TL_SETTING && tl_agc_new_at(&agc, 5, 1, 1) == TL_NONE && agc.gain == 1);
    pairs[0] = 3, pairs[1] = 4;
    EXPECT(tl_agc_process_at(&agc, pairs, 2, &struck) == TL_NONE && struck == 0 && agc.gain > 0.99f && agc.gain < 1);
    EXPECT(tl_audio_agc_new_at(&audio, 0.5f, 1, 1, 10, 1000, 0) == TL_SETTING);
    EXPECT(tl_audio_agc_new_at(&audio, 0.5f, 1, 1, 10, 1000, 0.01f) == TL_NONE && audio.hang_time_samples == 10);
    mono[0] = 1, mono[1] = INFINITY;
    EXPECT(tl_audio_agc_process_at(&audio, mono, 2, &struck) == TL_NONE && struck == 1 && audio.hang_counter == 10);
    EXPECT(mono[0] > 0.49f && mono[0] < 0.5f && mono[1] == 0);
    /* Above the floor outputs are clamped, below it they are not. */
    EXPECT(tl_audio_agc_new_at(&audio, 9, 1, 1, 10, 1000, 5) == TL_NONE);
    mono[0] = 3, mono[1] = 6;
    EXPECT(tl_audio_agc_process_at(&audio, mono, 2, &struck) == TL_NONE && mono[0] == 3 && mono[1] == 1);
    EXPECT(tl_audio_agc_new_at(&audio, 0.5f, 1, 1, 10, 1000, 0.01f) == TL_NONE);
    audio.hang_counter = 11;
    EXPECT(tl_audio_agc_process_at(&audio, mono, 2, &struck) == TL_STATE && struck == 0);
}

static void demodulators(void) {
    const float turn[4] = {1, 0, 0, 1}, back[2] = {-1, 0}, magnitude[2] = {3, 4};
    float output[2] = {9, 9};
    size_t count = 99, struck = 99;
    tl_fm fm;
    tl_am am;
    EXPECT(tl_fm_new_at(&fm) == TL_NONE && fm.deemph_alpha == 1);
    EXPECT(tl_fm_process_into_at(&fm, turn, 4, output, 2, &count, &struck) == TL_NONE && count == 2 && struck == 0);
    EXPECT(output[0] == 0 && output[1] == 0.5f);
    EXPECT(tl_fm_new_at(&fm) == TL_NONE && tl_fm_process_into_at(&fm, back, 2, output, 2, NULL, NULL) == TL_NONE);
    EXPECT(output[0] == 1 && output[1] == 0.5f);
    EXPECT(tl_fm_with_deemphasis_at(&fm, 0, 50e-6f) == TL_SETTING && fm.deemph_alpha == 1);
    EXPECT(tl_fm_with_deemphasis_at(&fm, 48000, 50e-6f) == TL_NONE && fm.deemph_alpha < 1);
    memset(&fm, 0, sizeof fm); /* accepted, and silent */
    EXPECT(tl_fm_process_into_at(&fm, turn, 4, output, 2, NULL, NULL) == TL_NONE && output[0] == 0 && output[1] == 0);
    EXPECT(tl_am_new_at(&am) == TL_NONE && am.dc_alpha == 0.005f);
    EXPECT(tl_am_process_into_at(&am, magnitude, 2, output, 2, &count, &struck) == TL_NONE && count == 1);
    EXPECT(output[0] == 0 && am.dc_mean == 5);
}

static void sidebands(void) {
    float taps[TL_SSB_TAPS], q_history[TL_SSB_Q_HISTORY], i_history[TL_SSB_I_HISTORY];
    float pairs[2 * 40], output[40];
    size_t k, count = 99;
    tl_ssb ssb = {false};
    tl_hilbert_done done = tl_hilbert_new(taps, 2, q_history, 1);
    EXPECT(done.refusal == TL_SETTING);
    /* The guide's warning: 7 taps are silent, 5 are not. */
    for (k = 0; k < 8; k++) {
        pairs[k] = 1 + (float)k;
    }
    EXPECT(tl_hilbert_new(taps, 7, q_history, 6).refusal == TL_NONE);
    EXPECT(tl_hilbert_process_into(taps, 7, q_history, 6, pairs, 8, output, 8).count == 8);
    EXPECT(fabsf(output[3]) < 1e-6f && fabsf(output[7]) < 1e-6f);
    EXPECT(tl_hilbert_new(taps, 5, q_history, 4).refusal == TL_NONE);
    EXPECT(tl_hilbert_process_into(taps, 5, q_history, 4, pairs, 8, output, 8).count == 8 && fabsf(output[7]) > 0.1f);
    done = tl_hilbert_new(taps, TL_SSB_TAPS, q_history, TL_SSB_Q_HISTORY);
    EXPECT(done.refusal == TL_NONE && taps[0] == 0 && taps[31] < -0.6f && taps[33] > 0.6f);
    for (k = 0; k < 80; k++) {
        pairs[k] = k == 0;
    }
    done = tl_hilbert_process_into(taps, TL_SSB_TAPS, q_history, TL_SSB_Q_HISTORY, pairs, 40, output, 40);
    EXPECT(done.refusal == TL_NONE && done.count == 40 && output[31] == taps[33] && q_history[24] == 1);
    EXPECT(tl_ssb_new_at(&ssb, true, taps, 63, q_history, 62, i_history, 32) == TL_LENGTH && !ssb.is_usb);
    EXPECT(tl_ssb_new_at(&ssb, true, taps, TL_SSB_TAPS, q_history, TL_SSB_Q_HISTORY, i_history, TL_SSB_I_HISTORY) ==
           TL_NONE);
    EXPECT(ssb.is_usb && q_history[24] == 0);
    EXPECT(tl_ssb_process_into_at(&ssb, taps, TL_SSB_TAPS, q_history, TL_SSB_Q_HISTORY, i_history, TL_SSB_I_HISTORY,
                                  pairs, 80, output, 40, &count) == TL_NONE);
    EXPECT(count == 40 && output[31] == 0 && output[32] == 1 && output[33] == 0);
}

static void oscillator(void) {
    float iq[4] = {1, 0, 1, 0}, up[8] = {1, 0, 0, 1, -1, 0, 0, -1}, down[8] = {1, 0, 0, -1, -1, 0, 0, 1};
    size_t k;
    tl_nco nco;
    tl_nco_done zeros;
    EXPECT(tl_nco_new_at(&nco, 1, 0) == TL_SETTING && tl_nco_new_at(&nco, 250, 1000) == TL_NONE);
    EXPECT(tl_nco_mix_at(&nco, iq, 3) == TL_LENGTH && tl_nco_mix_at(&nco, iq, 4) == TL_NONE);
    EXPECT(iq[0] == 1 && iq[1] == 0 && fabsf(iq[2]) < 1e-6f && fabsf(iq[3] + 1) < 1e-6f && nco.phase > 3.14);
    EXPECT(tl_nco_set_freq_at(&nco, 100, 1000) == TL_NONE && tl_nco_reset_at(&nco) == TL_NONE && nco.phase == 0);
    /* A station at +250 Hz comes to 0; one at -250 Hz does by a frequency of -250. */
    EXPECT(tl_nco_new_at(&nco, 250, 1000) == TL_NONE && tl_nco_mix_at(&nco, up, 8) == TL_NONE);
    EXPECT(tl_nco_new_at(&nco, -250, 1000) == TL_NONE && tl_nco_mix_at(&nco, down, 8) == TL_NONE);
    for (k = 0; k < 8; k++) {
        EXPECT(fabsf(up[k] - (k % 2 == 0)) < 1e-6f && fabsf(down[k] - (k % 2 == 0)) < 1e-6f);
    }
    /* The zeros of a refused making call: the first pair passes, the others are 0. */
    zeros = tl_nco_mix(tl_nco_new(1, 0).state, up, 8);
    EXPECT(zeros.refusal == TL_NONE && fabsf(up[0] - 1) < 1e-6f);
    EXPECT(up[2] == 0 && up[3] == 0 && up[4] == 0 && up[5] == 0 && up[6] == 0 && up[7] == 0);
    nco.phase = (double)NAN;
    EXPECT(tl_nco_reset_at(&nco) == TL_STATE);
}

int main(void) {
    EXPECT(strcmp(tl_refusal_name(TL_ROOM), "ROOM") == 0 && strcmp(tl_refusal_name(6), "unknown") == 0);
    numbers();
    conversions();
    decimator();
    narrow_channel();
    levels();
    demodulators();
    sidebands();
    oscillator();
    printf("check.c: %d facts hold through the C face, %d do not\n", held, broken);
    return broken != 0;
}
