/* How much stack each function of the archive needs. Built and run by tests/stack.py, which makes calls.inc: a line
 * CALL(name) for each function of bindings/c/symbols.txt. So a function without work here does not compile.
 *
 * Each function works in a process of its own, on a thread of 32 KiB with a page below it that nothing may touch. The
 * thread paints its free stack, calls, and looks how far down the paint is gone. The process is new, so that the
 * dynamic linker's work at the first call of memcpy and memset is seen too. Where a limit is above 24 KiB the
 * thread is 8 KiB larger than the limit, and a line says so.
 *
 *     stack < LIMITS    each line of LIMITS is NAME KIB, and the name `other` has the limit of all that have no line
 */
#define _GNU_SOURCE
#include <math.h>
#include <pthread.h>
#include <stdio.h>
#include <stdlib.h>
#include <string.h>
#include <sys/mman.h>
#include <sys/wait.h>
#include <unistd.h>

#include "threshlantern.h"

#define KIB ((size_t)1024)
#define PAINT 0xA5

static float a[TL_LONGEST + 2], b[TL_LONGEST + 2], out[TL_LONGEST + 2], taps[771], history[770], delay[64];
static uint8_t bytes[TL_LONGEST + 2];
static volatile uint32_t sink; /* so that no call is left out */

/* Lengths about the sizes that the stages work in blocks of, the longest, and one that is too long. */
static const size_t lengths[] = {
    0, 1, 2, 3, 4, 5, 7, 8, 15, 16, 17, 30, 31, 32, 33, 34, 63, 64, 65, 66, 127, 128, 129, 254, 255, 256, 257, 258, 511,
    512, 514, 1023, 1024, 1026, 4096, 5000, 8192, 10000, TL_LONGEST - 1, TL_LONGEST, TL_LONGEST + 1, TL_LONGEST + 2};
#define EACH(value, of) \
    for (size_t at_##value = 0, value; at_##value < sizeof of / sizeof *of && (value = of[at_##value], 1); at_##value++)

/* Ordinary samples; with kind 1 some that are struck, overflow or pass, with kind 2 nothing but zeros. */
static void fill(float *to, size_t n, size_t kind) {
    static const float odd[] = {0, -0.0f, NAN, INFINITY, -INFINITY, 3e38f, -3e38f, 1e-40f, 1e30f};
    for (size_t k = 0; k < n; k++) {
        to[k] = kind == 2                  ? 0
                : kind == 1 && k % 37 == 5 ? odd[k / 37 % 9]
                                           : (float)((int)(k * 7919 % 2001) - 1000) / 1000;
    }
}
static const size_t kinds[] = {0, 1, 2};

#define NEED(name) static void need_##name(void)

NEED(tl_convert) {
    EACH (n, lengths) sink = tl_convert(bytes, n, a, n) + tl_convert(bytes, n, a, n + 1);
}
NEED(tl_convert_inverted) {
    EACH (n, lengths) sink = tl_convert_inverted(bytes, n, a, n) + tl_convert_inverted(bytes, n, a, 0);
}

static const size_t tap_counts[] = {0, 1, 2, 3, 5, 25, 63, 65, 121, 129, 767, 768, 769, 771};
static const float cutoffs[] = {0, 1.0f / 1024, 0.04f, 0.25f, 0.49999997f, 0.5f, NAN};
NEED(tl_design_lowpass) {
    EACH (n, tap_counts)
        for (size_t k = 0; k < 7; k++) sink = tl_design_lowpass(taps, n, cutoffs[k]);
}

static const size_t factors[] = {0, 1, 2, 3, 10, 32, 63, 64, 65};
NEED(tl_decimator_new) {
    tl_decimator state;
    EACH (factor, factors)
        EACH (n, tap_counts)
            for (size_t k = 0; k < 7; k++) {
                sink = tl_decimator_new(factor, cutoffs[k], taps, n, history, n - 1).refusal;
                sink = tl_decimator_new_at(&state, factor, cutoffs[k], taps, n, history, n);
            }
}
NEED(tl_decimator_with_factor) {
    tl_decimator state;
    EACH (factor, factors) {
        sink = tl_decimator_with_factor(factor, taps, 12 * factor + 1, history, 12 * factor).refusal;
        EACH (n, tap_counts) sink = tl_decimator_with_factor_at(&state, factor, taps, n, history, n - 1);
    }
}
NEED(tl_decimator_process_into) {
    size_t count;
    fill(taps, 771, 0);
    EACH (kind, kinds)
        EACH (factor, factors)
            EACH (t, tap_counts)
                EACH (n, lengths) {
                    tl_decimator state = {factor, factor / 2};
                    /* The longest blocks with few taps or a large factor, and once with all. */
                    if (n > 10000 && (kind != 0 || (t > 25 && factor < 63 && !(t == 769 && factor == 2)))) continue;
                    if (at_n == 0) fill(a, kind == 0 ? TL_LONGEST : 10000, kind);
                    sink = tl_decimator_process_into_at(&state, taps, t, history, t - 1, a, n, out, n, &count);
                    sink = tl_decimator_process_into(state, taps, t, history, t - 1, a, n, out, n / 128).refusal;
                }
}
NEED(tl_decimator_reset) {
    EACH (factor, factors)
        EACH (n, tap_counts) {
            tl_decimator state = {factor, 1};
            sink = tl_decimator_reset(state, taps, n, history, n - 1).refusal +
                   tl_decimator_reset_at(&state, taps, n, history, n);
        }
}
NEED(tl_decimator_update_cutoff) {
    EACH (factor, factors)
        EACH (n, tap_counts)
            for (size_t k = 0; k < 7; k++) {
                tl_decimator state = {factor, 1};
                sink = tl_decimator_update_cutoff(state, cutoffs[k], taps, n, history, n - 1).refusal;
                sink = tl_decimator_update_cutoff_at(&state, cutoffs[k], taps, n, history, n);
            }
}

static const float settings[] = {0, 0.005f, 0.5f, 1, 1.5f, -1, NAN, INFINITY, 1e30f};
#define EACH_SETTING(x) for (const float *x = settings; x < settings + 9; x++)
NEED(tl_dc_remover_new) {
    tl_dc_remover state;
    EACH_SETTING (x) sink = tl_dc_remover_new(*x).refusal + tl_dc_remover_new_at(&state, *x);
}
#define IN_PLACE(make, call, call_at) \
    EACH (kind, kinds) \
        EACH (n, lengths) \
            EACH_SETTING (x) { \
                make; \
                if (n > 10000 && x != settings + 2) continue; \
                fill(a, n, kind); \
                call; \
                fill(a, n, kind); \
                call_at; \
            }
NEED(tl_dc_remover_process) {
    size_t struck;
    IN_PLACE(tl_dc_remover s = (tl_dc_remover){.alpha = *x}, sink = tl_dc_remover_process(s, a, n).refusal,
             sink = tl_dc_remover_process_at(&s, a, n, &struck));
}
NEED(tl_dc_remover_process_mono) {
    size_t struck;
    IN_PLACE(tl_dc_remover s = (tl_dc_remover){.alpha = *x}, sink = tl_dc_remover_process_mono(s, a, n).refusal,
             sink = tl_dc_remover_process_mono_at(&s, a, n, &struck));
}
NEED(tl_dc_remover_process_split) {
    size_t struck;
    fill(b, TL_LONGEST, 1);
    IN_PLACE(tl_dc_remover s = (tl_dc_remover){.alpha = *x}, sink = tl_dc_remover_process_split(s, a, n, b, n).refusal,
             sink = tl_dc_remover_process_split_at(&s, a, n, b, n / 2 + 7, &struck));
}
NEED(tl_agc_new) {
    tl_agc state;
    EACH_SETTING (x)
        EACH_SETTING (y) sink = tl_agc_new(*x, *y, *y).refusal + tl_agc_new_at(&state, *x, 0.5f, *y);
}
NEED(tl_agc_process) {
    size_t struck;
    IN_PLACE(tl_agc s = ((tl_agc){1, *x, 0.5f, 0.5f}), sink = tl_agc_process(s, a, n).refusal,
             sink = tl_agc_process_at(&s, a, n, &struck));
}
NEED(tl_audio_agc_new) {
    tl_audio_agc state;
    EACH_SETTING (x)
        EACH_SETTING (y) {
            sink = tl_audio_agc_new(0.5f, 0.5f, 0.5f, *x, *y, 0.01f).refusal;
            sink = tl_audio_agc_new_at(&state, *x, *y, *y, 100, 48000, *x);
        }
}
NEED(tl_audio_agc_process) {
    size_t struck;
    IN_PLACE(tl_audio_agc s = ((tl_audio_agc){1, *x, 0.5f, 0.5f, 0.01f, 10, 3, 0.5f}),
             sink = tl_audio_agc_process(s, a, n).refusal, sink = tl_audio_agc_process_at(&s, a, n, &struck));
}

NEED(tl_fm_new) {
    tl_fm state;
    sink = tl_fm_new().refusal + tl_fm_new_at(&state);
}
NEED(tl_fm_with_deemphasis) {
    EACH_SETTING (x)
        EACH_SETTING (y) {
            tl_fm s = {0, *y, 0};
            sink = tl_fm_with_deemphasis(s, *x, *y).refusal + tl_fm_with_deemphasis_at(&s, 48000 * *x, 50e-6f);
        }
}
NEED(tl_fm_process_into) {
    size_t count, struck;
    IN_PLACE(tl_fm s = ((tl_fm){0, *x, 0}), sink = tl_fm_process_into(s, a, n, out, n / 2).refusal,
             sink = tl_fm_process_into_at(&s, a, n, out, n / 3, &count, &struck));
}
NEED(tl_am_new) {
    tl_am state;
    sink = tl_am_new().refusal + tl_am_new_at(&state);
}
NEED(tl_am_process_into) {
    size_t count, struck;
    IN_PLACE(tl_am s = ((tl_am){*x, 0, 0.5f, 0}), sink = tl_am_process_into(s, a, n, out, n / 2).refusal,
             sink = tl_am_process_into_at(&s, a, n, out, n / 3, &count, &struck));
}

NEED(tl_hilbert_new) {
    EACH (n, tap_counts)
        sink = tl_hilbert_new(taps, n, history, n - 1).refusal + tl_hilbert_new(taps, n, history, n).refusal;
}
NEED(tl_hilbert_process_into) {
    fill(taps, 771, 0);
    EACH (kind, kinds)
        EACH (t, tap_counts)
            EACH (n, lengths) {
                if (n > 10000 && (kind != 0 || t != 129)) continue;
                fill(a, n, kind);
                sink = tl_hilbert_process_into(taps, t, history, t - 1, a, n, out, n).refusal;
                sink = tl_hilbert_process_into(taps, t, history, t, a, n, out, n / 2).refusal;
            }
}
NEED(tl_ssb_new) {
    tl_ssb state;
    EACH (n, tap_counts)
        sink = tl_ssb_new(true, taps, n, history, n - 1, delay, 32).refusal +
               tl_ssb_new_at(&state, false, taps, n, history, n - 1, delay, 31);
}
NEED(tl_ssb_process_into) {
    size_t count;
    fill(taps, 771, 0);
    EACH (kind, kinds)
        EACH (t, tap_counts)
            EACH (n, lengths) {
                tl_ssb s = {at_n % 2 == 0};
                if (n > 10000 && (kind != 0 || t != 65)) continue;
                fill(a, n, kind);
                sink = tl_ssb_process_into(s, taps, t, history, t - 1, delay, 32, a, n, out, n / 2).refusal;
                sink = tl_ssb_process_into_at(&s, taps, t, history, t - 1, delay, 32, a, n, out, n / 3, &count);
            }
}

NEED(tl_nco_new) {
    tl_nco state;
    EACH_SETTING (x)
        EACH_SETTING (y) sink = tl_nco_new(*x, *y).refusal + tl_nco_new_at(&state, 100 * *x, 1000);
}
NEED(tl_nco_set_freq) {
    EACH_SETTING (x)
        EACH_SETTING (y) {
            tl_nco s = {*y, 0.1, 1, 0};
            sink = tl_nco_set_freq(s, *x, *y).refusal + tl_nco_set_freq_at(&s, 100 * *x, 1000);
        }
}
NEED(tl_nco_mix) {
    IN_PLACE(tl_nco s = ((tl_nco){100 * *x, 0.1, 0.995, 0.0998}), sink = tl_nco_mix(s, a, n).refusal,
             sink = tl_nco_mix_at(&s, a, n));
}
NEED(tl_nco_reset) {
    EACH_SETTING (x) {
        tl_nco s = {*x, 0.1, 1, 0};
        sink = tl_nco_reset(s).refusal + tl_nco_reset_at(&s);
    }
}

static const double numbers[] = {0,     -0.0, 1,      -1,    0.1,    2.5,         1e-310,
                                 1e-42, 1e10, -1e300, 1e308, 3.5e38, (double)NAN, (double)INFINITY};
static volatile double told;
#define NUMBER(name, call) \
    NEED(name) { \
        for (const double *x = numbers, *y; x < numbers + 14; x++) \
            for (y = numbers; y < numbers + 14; y++) told = (double)(call); \
    }
NUMBER(tl_sqrt, tl_sqrt((float)*x))
NUMBER(tl_narrow, tl_narrow(*x))
NUMBER(tl_narrow_alone, tl_narrow_alone(*x))
NUMBER(tl_widen, tl_widen((float)*x))
NUMBER(tl_whole, tl_whole((float)*x))
NUMBER(tl_finite_f32, tl_finite_f32((float)*x))
NUMBER(tl_finite_f64, tl_finite_f64(*x))
NUMBER(tl_magnitude_f32, tl_magnitude_f32((float)*x))
NUMBER(tl_magnitude_f64, tl_magnitude_f64(*x))
NUMBER(tl_sine, tl_sine(*x))
NUMBER(tl_cosine, tl_cosine(*x))
NUMBER(tl_arctangent, tl_arctangent(*y, *x))
NUMBER(tl_sine_f32, tl_sine_f32((float)*x))
NUMBER(tl_cosine_f32, tl_cosine_f32((float)*x))
NUMBER(tl_arctangent_f32, tl_arctangent_f32((float)*y, (float)*x))

#define CALL(name) {#name, need_##name},
static const struct {
    const char *name;
    void (*work)(void);
} calls[] = {
#include "calls.inc"
};
enum { CALLS = sizeof calls / sizeof *calls };
static size_t limit[CALLS];

/* What the thread is given, and what it found. */
static volatile unsigned char *lowest;
static volatile size_t *found;

#if defined(__x86_64__)
#define STACK_POINTER(to) __asm__ volatile("mov %%rsp, %0" : "=r"(to))
#else
#define STACK_POINTER(to) __asm__ volatile("mov %0, sp" : "=r"(to))
#endif

static void *painted(void *call) {
    volatile unsigned char *top, *p;
    STACK_POINTER(top);
    for (p = lowest; p < top; p++) *p = PAINT;
    calls[*(size_t *)call].work();
    for (p = lowest; p < top && *p == PAINT; p++) {
    }
    *found = (size_t)(top - p);
    return NULL;
}

static void die(const char *what) {
    perror(what);
    exit(2);
}

/* The bytes that a function needs below its caller's, or 0 where it left the thread's stack. */
static size_t need(size_t call, size_t size) {
    int status;
    pid_t child;
    *found = 0;
    fflush(stdout);
    child = fork();
    if (child < 0) die("stack: fork");
    if (child == 0) {
        pthread_attr_t how;
        pthread_t thread;
        long page = sysconf(_SC_PAGESIZE);
        unsigned char *all =
            mmap(NULL, size + (size_t)page, PROT_READ | PROT_WRITE, MAP_PRIVATE | MAP_ANONYMOUS, -1, 0);
        if (all == MAP_FAILED || mprotect(all, (size_t)page, PROT_NONE) != 0) die("stack: mmap");
        lowest = all + page;
        if (pthread_attr_init(&how) != 0 || pthread_attr_setstack(&how, all + page, size) != 0) die("stack: size");
        if (pthread_create(&thread, &how, painted, &call) != 0 || pthread_join(thread, NULL) != 0) die("stack: thread");
        _exit(0);
    }
    if (waitpid(child, &status, 0) < 0) die("stack: wait");
    if (WIFEXITED(status) && WEXITSTATUS(status) != 0) exit(2);
    return WIFEXITED(status) ? *found : 0;
}

static void limits(void) {
    char name[64];
    size_t kib, other = 0, k;
    while (scanf("%63s %zu", name, &kib) == 2) {
        bool known = strcmp(name, "other") == 0;
        if (known) other = kib * KIB;
        for (k = 0; k < CALLS; k++) {
            if (strcmp(name, calls[k].name) == 0) limit[k] = kib * KIB, known = true;
        }
        if (!known) printf("stack: the header has a line for %s, which is no function of the archive\n", name), exit(1);
    }
    for (k = 0; k < CALLS; k++) {
        if (limit[k] == 0) limit[k] = other;
        if (limit[k] == 0) printf("stack: the header says nothing of %s\n", calls[k].name), exit(1);
    }
}

int main(int words, char **word) {
    int broken = 0;
    size_t k;
    found = mmap(NULL, sizeof *found, PROT_READ | PROT_WRITE, MAP_SHARED | MAP_ANONYMOUS, -1, 0);
    if (found == MAP_FAILED) die("stack: mmap");
    limits();
    for (k = 0; k < CALLS; k++) {
        size_t size = limit[k] > 24 * KIB ? limit[k] + 8 * KIB : 32 * KIB;
        size_t bytes_needed = need(k, size);
        if (size > 32 * KIB)
            printf("stack: %s has a thread of %zu KiB, as its line in the header is above 24 KiB\n", calls[k].name,
                   size / KIB);
        if (bytes_needed == 0) {
            broken++;
            printf("stack: %s left a thread of %zu KiB\n", calls[k].name, size / KIB);
        } else if (bytes_needed > limit[k]) {
            broken++;
            printf("stack: %s needs %zu bytes, and the header says %zu KiB\n", calls[k].name, bytes_needed,
                   limit[k] / KIB);
        } else if (words == 2 && strcmp(word[1], "--all") == 0) {
            printf("stack: %-30s %6zu bytes\n", calls[k].name, bytes_needed);
        }
    }
    return broken != 0;
}
