/* A receiver through the C header: pairs of bytes on standard input, f32 little-endian of sound on standard output, the
 * same bytes as the demo's. After `make lib`:
 *
 *     cc -Ibuild bindings/c/example.c build/libthreshlantern.a -o build/example
 *     build/example < captures/alarm.cu8 > build/alarm.f32
 */
#include <stdio.h>

#include "threshlantern.h"

enum { BYTES = 16384, TAPS = TL_DECIMATOR_TAPS(10), ROOM = BYTES / 20 + 1 };

typedef struct {
    tl_decimator state;
    float history[TAPS - 1];
} half;

/* What a receiver remembers from block to block. */
typedef struct {
    half i, q;
    tl_fm fm;
} memory;

typedef struct {
    memory now;
    float taps[TAPS], samples[BYTES], i[BYTES / 2], q[BYTES / 2];
    float i_tenth[ROOM], q_tenth[ROOM], pairs[2 * ROOM], sound[ROOM];
} receiver;

static uint32_t half_new(half *h, float *taps) {
    return tl_decimator_with_factor_at(&h->state, 10, taps, TAPS, h->history, TAPS - 1);
}

static uint32_t tenth(half *h, const float *taps, const float *x, size_t n, float *out, size_t *count) {
    return tl_decimator_process_into_at(&h->state, taps, TAPS, h->history, TAPS - 1, x, n, out, ROOM, count);
}

uint32_t receiver_new(receiver *r) {
    uint32_t no = half_new(&r->now.i, r->taps);
    if (!no) no = half_new(&r->now.q, r->taps);
    return no ? no : tl_fm_new_at(&r->now.fm);
}

/* The sound of n bytes, whole pairs: *count samples in r->sound. Returns the number of a refusal, after which the
 * receiver goes on as if the block had not been there. */
uint32_t receive(receiver *r, const uint8_t *bytes, size_t n, size_t *count, size_t *struck) {
    memory next = r->now; /* kept only when every call was accepted: I and Q move together or not at all */
    uint32_t no;
    size_t k;
    *count = *struck = 0;
    if (n > BYTES) return TL_LIMIT;
    if (n % 2 != 0) return TL_LENGTH;
    no = tl_convert(bytes, n, r->samples, n);
    for (k = 0; k < n / 2; k++) r->i[k] = r->samples[2 * k], r->q[k] = r->samples[2 * k + 1];
    if (!no) no = tenth(&next.i, r->taps, r->i, n / 2, r->i_tenth, count);
    if (!no) no = tenth(&next.q, r->taps, r->q, n / 2, r->q_tenth, count);
    for (k = 0; k < *count; k++) r->pairs[2 * k] = r->i_tenth[k], r->pairs[2 * k + 1] = r->q_tenth[k];
    if (!no) no = tl_fm_process_into_at(&next.fm, r->pairs, 2 * *count, r->sound, ROOM, count, struck);
    if (!no) r->now = next;
    return no;
}

int main(void) {
    static receiver r;
    static uint8_t bytes[BYTES];
    size_t n, count, struck;
    uint32_t no = receiver_new(&r);
    if (no) {
        fprintf(stderr, "receiver: refused, %s\n", tl_refusal_name(no));
        return 1;
    }
    /* fread fills its buffer as long as there is input, so only the last block can be odd. */
    while ((n = fread(bytes, 1, BYTES, stdin)) != 0) {
        if (n % 2 != 0) fprintf(stderr, "odd input\n");
        no = receive(&r, bytes, n - n % 2, &count, &struck);
        /* A refusal costs its block and no more: it is no reason to stop. */
        if (no) fprintf(stderr, "a block of %lu bytes: refused, %s\n", (unsigned long)n, tl_refusal_name(no));
        if (struck) fprintf(stderr, "FM: %lu pairs struck\n", (unsigned long)struck);
        if (fwrite(r.sound, sizeof(float), count, stdout) != count) break;
    }
    if (ferror(stdin)) {
        perror("read");
        return 1;
    }
    if (ferror(stdout) || fflush(stdout) != 0) {
        perror("write");
        return 1;
    }
    return 0;
}
