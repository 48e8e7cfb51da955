/* Threshlantern: a proved signal path for rescue-channel recorders. The C header of libthreshlantern.a.
 *
 * API conventions
 *
 * - Slices. A slice is a pointer and a length in elements. The caller lends it for the length of the call and no
 *   longer: the library keeps nothing between calls, allocates nothing, and calls nothing but the C library's memcpy
 *   and memset. A slice that a call writes may not overlap another slice of that call. A slice of length 0 may have any
 *   pointer, NULL too, as an empty C++ vector's data() does. The library cannot check that a length is right
 *   for its pointer: the caller must see to it.
 * - States. What a stage remembers besides its slices is a small struct of numbers. The caller passes it by value and
 *   gets the new one back; pass that to the next call. It holds no pointer and can be copied freely.
 * - Refusals. Each call of a stage returns a number, alone or as the first field of a struct: TL_NONE, or the first of
 *   these that applies.
 *     1 TL_SETTING  a setting, also one inside the state, breaks its rule. NaN breaks every rule
 *     2 TL_STATE    a stored float is not finite, or a hang counter is above its hang time
 *     3 TL_LIMIT    an input, or a slice worked on in place, has more than TL_LONGEST elements
 *     4 TL_LENGTH   an interleaved slice is odd, or two lengths do not belong together
 *     5 TL_ROOM     the output slice is shorter than the output
 *   A refused call returns the state that was passed in and counts of 0, and changes no byte of a slice. A refused
 *   `_new` or `_with_factor` returns a state of zeros, which later calls do not always refuse: check the number before
 *   you use the state. No call of this library makes a state that a later one refuses.
 * - Counts. `count` is the number of outputs written, from the start of the output slice; the places behind them stay
 *   as they were. `struck` is the number of samples or pairs that were struck: where a step would store or put out NaN
 *   or an infinity, its outputs are 0.0 and the state stays as it was before the step. Log it whenever it is not 0.
 * - Pairs. An interleaved slice is I, Q, I, Q and so on; its length is the number of floats, twice the number of pairs.
 * - Streams. Cut a stream into calls of any length up to the limit: outputs, last state and counts are those of one
 *   call over the whole. Only the oscillator is an exception: see tl_nco_mix.
 * - Threads. Calls share nothing. While a call runs, no other thread may touch its slices.
 * - Stack. A call needs at most this much below its caller's frame. Measured on the shipped x86-64 archive, with what
 *   the dynamic linker takes at the first call of memcpy or memset (3 KiB), and rounded up (tests/stack.py):
 *     tl_decimator_process_into  72 KiB
 *     tl_ssb_process_into        10 KiB
 *     tl_hilbert_process_into     8 KiB
 *     every other call            6 KiB
 * - `_at`. Each call that takes or makes a state has a form that takes a pointer to the state and returns the number
 *   alone. Refused, it leaves the state as it was, also where it was to make one. Pointers to counts may be NULL.
 *
 * Every function of the archive is proved to end, to stay within its slices, and to return what its definition says, to
 * the bit, for every input. The `_at` forms and tl_refusal_name are a few lines of C each, in this file: they are not
 * proved, and are tested. The archive is for x86-64 Linux.
 */
#ifndef THRESHLANTERN_H
#define THRESHLANTERN_H

#include <stdbool.h>
#include <stddef.h>
#include <stdint.h>

#ifdef __cplusplus
extern "C" {
#endif

enum {
    TL_NONE = 0,
    TL_SETTING = 1,
    TL_STATE = 2,
    TL_LIMIT = 3,
    TL_LENGTH = 4,
    TL_ROOM = 5
};

/* The most elements of an input or of a slice worked on in place: 131,072 pairs. */
#define TL_LONGEST 262144

/* The lengths of the SSB demodulator's slices. */
#define TL_SSB_TAPS 65
#define TL_SSB_Q_HISTORY 64
#define TL_SSB_I_HISTORY 32

/* The number of taps of tl_decimator_with_factor, and the length of the history that belongs to some taps. */
#define TL_DECIMATOR_TAPS(factor) (12 * (factor) + 1)
#define TL_HISTORY(taps) ((taps) - 1)

/* The name of a refusal, for a log. */
static inline const char *tl_refusal_name(uint32_t refusal) {
    static const char *const names[] = {"NONE", "SETTING", "STATE", "LIMIT", "LENGTH", "ROOM"};
    return refusal <= TL_ROOM ? names[refusal] : "unknown";
}

/* ---- Conversions: the dongle's bytes as floats from -1.0 (byte 0) to 1.0 (byte 255), (s - 127.5) / 127.5 ---- */

/* Writes the value of each byte to the same place of dst. LIMIT: more than TL_LONGEST bytes. LENGTH: an odd number of
 * bytes, or a dst of another length. */
uint32_t tl_convert(const uint8_t *src, size_t src_len, float *dst, size_t dst_len);

/* The same with Q negated, which inverts the spectrum. Refused as tl_convert. */
uint32_t tl_convert_inverted(const uint8_t *src, size_t src_len, float *dst, size_t dst_len);

/* ---- Lowpass design ---- */

/* Writes the taps of a lowpass filter, as many as the slice has places; they add up to 1, and the window is Hamming's.
 * The cutoff is a fraction of the sample rate. SETTING: taps even, below 3 or above 769; cutoff below 1/1024, or not
 * below 0.5. */
uint32_t tl_design_lowpass(float *taps, size_t taps_len, float cutoff);

/* ---- Decimator: a lowpass filter that keeps each factor-th output ---- */

typedef struct {
    size_t factor; /* 2 to 64 */
    size_t phase;  /* samples before the next output, below factor */
} tl_decimator;

typedef struct {
    uint32_t refusal;
    tl_decimator state;
    size_t count;
} tl_decimator_done;

/* Designs the taps at this cutoff and clears the history. SETTING: factor outside 2 to 64, or what tl_design_lowpass
 * refuses. LENGTH: a history that is not taps less one. */
tl_decimator_done tl_decimator_new(size_t factor, float cutoff, float *taps, size_t taps_len, float *history,
                                   size_t history_len);

/* The same at a cutoff of 0.75 / factor, with TL_DECIMATOR_TAPS(factor) taps. That cutoff lets stations beside the
 * channel through: for narrow channels use tl_decimator_new at 0.4f / factor (the guide has a table). SETTING: factor
 * outside 2 to 64; taps even, below 3 or above 769. LENGTH: another number of taps, or a history that is not taps less
 * one. */
tl_decimator_done tl_decimator_with_factor(size_t factor, float *taps, size_t taps_len, float *history,
                                           size_t history_len);

/* Filters a block. There are ceil(max(0, input_len - phase) / factor) outputs. The input may be odd. NaN and infinities
 * pass to the outputs whose window they are in, and to no other. SETTING: factor, phase or number of taps. LIMIT.
 * LENGTH: the history. ROOM: fewer places than outputs. */
tl_decimator_done tl_decimator_process_into(tl_decimator state, const float *taps, size_t taps_len, float *history,
                                            size_t history_len, const float *input, size_t input_len, float *output,
                                            size_t output_len);

/* Clears history and phase, for a new stream. SETTING: factor, phase or number of taps; the phase is checked although
 * it is about to be cleared. LENGTH: the history. */
tl_decimator_done tl_decimator_reset(tl_decimator state, const float *taps, size_t taps_len, float *history,
                                     size_t history_len);

/* Designs the taps at another cutoff, and keeps history and phase. SETTING: factor, phase, number of taps or cutoff.
 * LENGTH: the history. */
tl_decimator_done tl_decimator_update_cutoff(tl_decimator state, float cutoff, float *taps, size_t taps_len,
                                             const float *history, size_t history_len);

/* ---- DC remover: subtracts a running mean from each sample. NaN and infinities are struck ---- */

typedef struct {
    float avg_i;
    float avg_q;
    float alpha; /* 0 to 1: the weight of a new sample */
} tl_dc_remover;

typedef struct {
    uint32_t refusal;
    tl_dc_remover state;
    size_t struck;
} tl_dc_remover_done;

/* Means of 0. SETTING: alpha outside 0 to 1. */
tl_dc_remover_done tl_dc_remover_new(float alpha);

/* Interleaved pairs, in place; a pair with one bad half is struck whole. SETTING: alpha. STATE: a mean that is not
 * finite. LIMIT. LENGTH: an odd slice. */
tl_dc_remover_done tl_dc_remover_process(tl_dc_remover state, float *data, size_t data_len);

/* Samples, in place, with I's mean. SETTING: alpha. STATE: a mean that is not finite, also Q's. LIMIT. */
tl_dc_remover_done tl_dc_remover_process_mono(tl_dc_remover state, float *data, size_t data_len);

/* I and Q in two slices, to the end of the shorter; the rest of the longer stays. SETTING: alpha. STATE: a mean that
 * is not finite. LIMIT: either slice. */
tl_dc_remover_done tl_dc_remover_process_split(tl_dc_remover state, float *i, size_t i_len, float *q, size_t q_len);

/* ---- Gain control of pairs ---- */

typedef struct {
    float gain;
    float target; /* the magnitude to reach, above 0 */
    float attack; /* 0 to 1: how fast the gain falls */
    float decay;  /* 0 to 1: how fast it rises */
} tl_agc;

typedef struct {
    uint32_t refusal;
    tl_agc state;
    size_t struck;
} tl_agc_done;

/* A gain of 1. SETTING: target not finite or not above 0; attack or decay outside 0 to 1. */
tl_agc_done tl_agc_new(float target, float attack, float decay);

/* Interleaved pairs, in place. SETTING: target, attack or decay. STATE: a gain that is not finite. LIMIT. LENGTH: an
 * odd slice. */
tl_agc_done tl_agc_process(tl_agc state, float *data, size_t data_len);

/* ---- Gain control of audio, with a hang time and a noise floor. Outputs are clamped to -1 to 1, except while the
 * envelope is below the floor ---- */

typedef struct {
    float gain;
    float target;             /* above 0 */
    float attack;             /* 0 to 1 */
    float decay;              /* 0 to 1 */
    float min_magnitude;      /* the floor, above 0: while the envelope is below it, the gain goes back to 1 */
    size_t hang_time_samples; /* below 16,777,216 */
    size_t hang_counter;      /* at most the hang time */
    float envelope;
} tl_audio_agc;

typedef struct {
    uint32_t refusal;
    tl_audio_agc state;
    size_t struck;
} tl_audio_agc_done;

/* A gain of 1. SETTING: target or floor not finite or not above 0; attack or decay outside 0 to 1; hang time not finite
 * or below 0; rate not finite or not above 0; a hang of 16,777,216 samples or more. */
tl_audio_agc_done tl_audio_agc_new(float target, float attack, float decay, float hang_time_ms, float sample_rate,
                                   float min_magnitude);

/* Samples, in place. SETTING: target, attack, decay, floor or stored hang time. STATE: a gain or envelope that is
 * not finite, a hang counter above the hang time. LIMIT. */
tl_audio_agc_done tl_audio_agc_process(tl_audio_agc state, float *data, size_t data_len);

/* ---- FM demodulator: the angle from pair to pair as a fraction of PI, from -1 to 1 ---- */

typedef struct {
    float last_phase;
    float deemph_alpha; /* 0 to 1; 1 is no de-emphasis */
    float deemph_state;
} tl_fm;

typedef struct {
    uint32_t refusal;
    tl_fm state;
    size_t count;
    size_t struck;
} tl_fm_done;

/* Without de-emphasis. Never refused. */
tl_fm_done tl_fm_new(void);

/* The same demodulator with a de-emphasis of tau seconds. SETTING: the old alpha outside 0 to 1; rate not finite or not
 * above 0; tau not finite or below 0; the new alpha, as computed, outside 0 to 1. STATE: a stored float that is not
 * finite. */
tl_fm_done tl_fm_with_deemphasis(tl_fm state, float sample_rate, float tau);

/* One output for each pair, also for a struck one. SETTING: alpha. STATE: a stored float that is not finite. LIMIT.
 * LENGTH: an odd input. ROOM: fewer places than pairs. */
tl_fm_done tl_fm_process_into(tl_fm state, const float *input, size_t input_len, float *output, size_t output_len);

/* ---- AM demodulator: the magnitude, less its running mean, less the running mean of what is left ---- */

typedef struct {
    float dc_alpha; /* 0 to 1 */
    float dc_mean;
    float hp_alpha; /* 0 to 1 */
    float hp_state;
} tl_am;

typedef struct {
    uint32_t refusal;
    tl_am state;
    size_t count;
    size_t struck;
} tl_am_done;

/* With the original's two alphas. Never refused. */
tl_am_done tl_am_new(void);

/* One output for each pair, also for a struck one. SETTING: either alpha. STATE: a stored float that is not finite.
 * LIMIT. LENGTH: an odd input. ROOM: fewer places than pairs. */
tl_am_done tl_am_process_into(tl_am state, const float *input, size_t input_len, float *output, size_t output_len);

/* ---- Hilbert filter: turns the phase of a signal by 90 degrees. It has no state but the caller's history ---- */

typedef struct {
    uint32_t refusal;
    size_t count;
} tl_hilbert_done;

/* Designs the taps, as many as the slice has places, and clears the history. Use 5, 9, 13, .. 129 taps: with 3, 7, 11
 * and so on the filter is silent. SETTING: taps even, below 3 or above 129. LENGTH: a history that is not taps less
 * one. */
tl_hilbert_done tl_hilbert_new(float *taps, size_t taps_len, float *history, size_t history_len);

/* One output for each sample; the input may be odd. NaN and infinities pass. SETTING: the number of taps. LIMIT.
 * LENGTH: the history. ROOM: fewer places than samples. */
tl_hilbert_done tl_hilbert_process_into(const float *taps, size_t taps_len, float *history, size_t history_len,
                                        const float *input, size_t input_len, float *output, size_t output_len);

/* ---- SSB demodulator: I delayed by 32, plus or minus the Hilbert filter of Q ---- */

typedef struct {
    bool is_usb; /* the upper sideband, else the lower */
} tl_ssb;

typedef struct {
    uint32_t refusal;
    tl_ssb state;
    size_t count;
} tl_ssb_done;

/* Designs the taps and clears both histories. SETTING: taps even, below 3 or above 129. LENGTH: taps that are not
 * TL_SSB_TAPS, histories that are not TL_SSB_Q_HISTORY and TL_SSB_I_HISTORY. */
tl_ssb_done tl_ssb_new(bool is_usb, float *taps, size_t taps_len, float *q_history, size_t q_history_len,
                       float *i_history, size_t i_history_len);

/* One output for each pair. NaN and infinities pass. SETTING: the number of taps. LIMIT. LENGTH: an odd input, or
 * lengths as in tl_ssb_new. ROOM: fewer places than pairs. */
tl_ssb_done tl_ssb_process_into(tl_ssb state, const float *taps, size_t taps_len, float *q_history,
                                size_t q_history_len, float *i_history, size_t i_history_len, const float *input,
                                size_t input_len, float *output, size_t output_len);

/* ---- Oscillator: shifts the spectrum of pairs down by its frequency: a station at +f comes to 0 ---- */

typedef struct {
    double phase;
    double phase_inc; /* -PI to PI */
    double rotator_i;
    double rotator_q;
} tl_nco;

typedef struct {
    uint32_t refusal;
    tl_nco state;
} tl_nco_done;

/* Shifts down by freq_hz, and up where that is negative. SETTING: frequency not finite; rate not finite or not above 0;
 * an increment, as computed, outside -PI to PI (half the rate may be taken or refused). The zeros of a refused call are
 * not refused by tl_nco_mix: it lets the first pair of each call through and makes the others 0. */
tl_nco_done tl_nco_new(double freq_hz, double sample_rate_hz);

/* Changes the frequency and keeps the phase. SETTING: as tl_nco_new, and the old increment. STATE: phase or a rotator
 * that is not finite. */
tl_nco_done tl_nco_set_freq(tl_nco state, double freq_hz, double sample_rate_hz);

/* Mixes pairs in place. NaN and infinities pass. Each call, also an empty one, computes sine and cosine anew at its
 * start and takes at most one turn off the phase at its end: so a stream that is cut elsewhere differs in its last
 * bits. SETTING: the increment. STATE: phase or a rotator that is not finite. LIMIT. LENGTH: an odd slice. */
tl_nco_done tl_nco_mix(tl_nco state, float *iq, size_t iq_len);

/* Phase 0. SETTING and STATE as tl_nco_mix: a damaged oscillator is refused and not mended; make a new one. */
tl_nco_done tl_nco_reset(tl_nco state);

/* ---- The numbers under the stages: the same bits on every machine. Never refused ---- */

float tl_sqrt(float x);                        /* IEEE 754, to the nearest */
float tl_narrow(double x);                     /* f64 to f32, to the nearest, ties to even */
float tl_narrow_alone(double x);               /* the same by another method */
double tl_widen(float x);                      /* the same value */
size_t tl_whole(float x);                      /* toward zero; 0 for NaN and below 1, at most the largest size_t */
bool tl_finite_f32(float x);
bool tl_finite_f64(double x);
float tl_magnitude_f32(float x);
double tl_magnitude_f64(double x);
double tl_sine(double x);                      /* by a fixed series; NaN where x is not finite */
double tl_cosine(double x);
double tl_arctangent(double y, double x);
float tl_sine_f32(float x);                    /* the same, narrowed */
float tl_cosine_f32(float x);
float tl_arctangent_f32(float y, float x);

/* ---- The forms that take a pointer to the state ---- */

/* Stores the state of an accepted call. */
#define TL_STORE_(state, done) \
    do { \
        if ((done).refusal == TL_NONE) { \
            *(state) = (done).state; \
        } \
    } while (0)

/* Stores a count where the caller wants one. */
#define TL_COUNT_(to, from) \
    do { \
        if ((to) != NULL) { \
            *(to) = (from); \
        } \
    } while (0)

static inline uint32_t tl_decimator_new_at(tl_decimator *state, size_t factor, float cutoff, float *taps,
                                           size_t taps_len, float *history, size_t history_len) {
    tl_decimator_done done = tl_decimator_new(factor, cutoff, taps, taps_len, history, history_len);
    TL_STORE_(state, done);
    return done.refusal;
}

static inline uint32_t tl_decimator_with_factor_at(tl_decimator *state, size_t factor, float *taps, size_t taps_len,
                                                   float *history, size_t history_len) {
    tl_decimator_done done = tl_decimator_with_factor(factor, taps, taps_len, history, history_len);
    TL_STORE_(state, done);
    return done.refusal;
}

static inline uint32_t tl_decimator_process_into_at(tl_decimator *state, const float *taps, size_t taps_len,
                                                    float *history, size_t history_len, const float *input,
                                                    size_t input_len, float *output, size_t output_len,
                                                    size_t *count) {
    tl_decimator_done done = tl_decimator_process_into(*state, taps, taps_len, history, history_len, input, input_len,
                                                       output, output_len);
    TL_STORE_(state, done);
    TL_COUNT_(count, done.count);
    return done.refusal;
}

static inline uint32_t tl_decimator_reset_at(tl_decimator *state, const float *taps, size_t taps_len, float *history,
                                             size_t history_len) {
    tl_decimator_done done = tl_decimator_reset(*state, taps, taps_len, history, history_len);
    TL_STORE_(state, done);
    return done.refusal;
}

static inline uint32_t tl_decimator_update_cutoff_at(tl_decimator *state, float cutoff, float *taps, size_t taps_len,
                                                     const float *history, size_t history_len) {
    tl_decimator_done done = tl_decimator_update_cutoff(*state, cutoff, taps, taps_len, history, history_len);
    TL_STORE_(state, done);
    return done.refusal;
}

static inline uint32_t tl_dc_remover_new_at(tl_dc_remover *state, float alpha) {
    tl_dc_remover_done done = tl_dc_remover_new(alpha);
    TL_STORE_(state, done);
    return done.refusal;
}

static inline uint32_t tl_dc_remover_process_at(tl_dc_remover *state, float *data, size_t data_len, size_t *struck) {
    tl_dc_remover_done done = tl_dc_remover_process(*state, data, data_len);
    TL_STORE_(state, done);
    TL_COUNT_(struck, done.struck);
    return done.refusal;
}

static inline uint32_t tl_dc_remover_process_mono_at(tl_dc_remover *state, float *data, size_t data_len,
                                                     size_t *struck) {
    tl_dc_remover_done done = tl_dc_remover_process_mono(*state, data, data_len);
    TL_STORE_(state, done);
    TL_COUNT_(struck, done.struck);
    return done.refusal;
}

static inline uint32_t tl_dc_remover_process_split_at(tl_dc_remover *state, float *i, size_t i_len, float *q,
                                                      size_t q_len, size_t *struck) {
    tl_dc_remover_done done = tl_dc_remover_process_split(*state, i, i_len, q, q_len);
    TL_STORE_(state, done);
    TL_COUNT_(struck, done.struck);
    return done.refusal;
}

static inline uint32_t tl_agc_new_at(tl_agc *state, float target, float attack, float decay) {
    tl_agc_done done = tl_agc_new(target, attack, decay);
    TL_STORE_(state, done);
    return done.refusal;
}

static inline uint32_t tl_agc_process_at(tl_agc *state, float *data, size_t data_len, size_t *struck) {
    tl_agc_done done = tl_agc_process(*state, data, data_len);
    TL_STORE_(state, done);
    TL_COUNT_(struck, done.struck);
    return done.refusal;
}

static inline uint32_t tl_audio_agc_new_at(tl_audio_agc *state, float target, float attack, float decay,
                                           float hang_time_ms, float sample_rate, float min_magnitude) {
    tl_audio_agc_done done = tl_audio_agc_new(target, attack, decay, hang_time_ms, sample_rate, min_magnitude);
    TL_STORE_(state, done);
    return done.refusal;
}

static inline uint32_t tl_audio_agc_process_at(tl_audio_agc *state, float *data, size_t data_len, size_t *struck) {
    tl_audio_agc_done done = tl_audio_agc_process(*state, data, data_len);
    TL_STORE_(state, done);
    TL_COUNT_(struck, done.struck);
    return done.refusal;
}

static inline uint32_t tl_fm_new_at(tl_fm *state) {
    tl_fm_done done = tl_fm_new();
    TL_STORE_(state, done);
    return done.refusal;
}

static inline uint32_t tl_fm_with_deemphasis_at(tl_fm *state, float sample_rate, float tau) {
    tl_fm_done done = tl_fm_with_deemphasis(*state, sample_rate, tau);
    TL_STORE_(state, done);
    return done.refusal;
}

static inline uint32_t tl_fm_process_into_at(tl_fm *state, const float *input, size_t input_len, float *output,
                                             size_t output_len, size_t *count, size_t *struck) {
    tl_fm_done done = tl_fm_process_into(*state, input, input_len, output, output_len);
    TL_STORE_(state, done);
    TL_COUNT_(count, done.count);
    TL_COUNT_(struck, done.struck);
    return done.refusal;
}

static inline uint32_t tl_am_new_at(tl_am *state) {
    tl_am_done done = tl_am_new();
    TL_STORE_(state, done);
    return done.refusal;
}

static inline uint32_t tl_am_process_into_at(tl_am *state, const float *input, size_t input_len, float *output,
                                             size_t output_len, size_t *count, size_t *struck) {
    tl_am_done done = tl_am_process_into(*state, input, input_len, output, output_len);
    TL_STORE_(state, done);
    TL_COUNT_(count, done.count);
    TL_COUNT_(struck, done.struck);
    return done.refusal;
}

static inline uint32_t tl_ssb_new_at(tl_ssb *state, bool is_usb, float *taps, size_t taps_len, float *q_history,
                                     size_t q_history_len, float *i_history, size_t i_history_len) {
    tl_ssb_done done = tl_ssb_new(is_usb, taps, taps_len, q_history, q_history_len, i_history, i_history_len);
    TL_STORE_(state, done);
    return done.refusal;
}

static inline uint32_t tl_ssb_process_into_at(tl_ssb *state, const float *taps, size_t taps_len, float *q_history,
                                              size_t q_history_len, float *i_history, size_t i_history_len,
                                              const float *input, size_t input_len, float *output, size_t output_len,
                                              size_t *count) {
    tl_ssb_done done = tl_ssb_process_into(*state, taps, taps_len, q_history, q_history_len, i_history, i_history_len,
                                           input, input_len, output, output_len);
    TL_STORE_(state, done);
    TL_COUNT_(count, done.count);
    return done.refusal;
}

static inline uint32_t tl_nco_new_at(tl_nco *state, double freq_hz, double sample_rate_hz) {
    tl_nco_done done = tl_nco_new(freq_hz, sample_rate_hz);
    TL_STORE_(state, done);
    return done.refusal;
}

static inline uint32_t tl_nco_set_freq_at(tl_nco *state, double freq_hz, double sample_rate_hz) {
    tl_nco_done done = tl_nco_set_freq(*state, freq_hz, sample_rate_hz);
    TL_STORE_(state, done);
    return done.refusal;
}

static inline uint32_t tl_nco_mix_at(tl_nco *state, float *iq, size_t iq_len) {
    tl_nco_done done = tl_nco_mix(*state, iq, iq_len);
    TL_STORE_(state, done);
    return done.refusal;
}

static inline uint32_t tl_nco_reset_at(tl_nco *state) {
    tl_nco_done done = tl_nco_reset(*state);
    TL_STORE_(state, done);
    return done.refusal;
}

#undef TL_STORE_
#undef TL_COUNT_

#ifdef __cplusplus
}
#endif

#endif
