/* What a decimator of factor 10 lets through of tones beside its channel: rows of docs/GUIDE.md's table, in dB. Built
 * and run by tests/neighbours.sh.
 *
 * At 240,000 pairs a second a tone of I and Q goes through two decimators of 121 taps. Once their histories are full,
 * the power that comes out is divided by the power that went in. */
#include <math.h>
#include <stdio.h>

#include "threshlantern.h"

enum { TAPS = TL_DECIMATOR_TAPS(10), PAIRS = 24000, OUT = PAIRS / 10, FULL = TAPS / 10 + 1 };

static float i[PAIRS], q[PAIRS], i_out[OUT], q_out[OUT], taps[TAPS], i_history[TAPS - 1], q_history[TAPS - 1];

/* In dB, or NAN where a call was refused. */
static double passes(double hz, float cutoff) {
    const double pi = 3.14159265358979323846;
    tl_decimator i_half, q_half;
    double in = 0, out = 0;
    size_t k, count;
    for (k = 0; k < PAIRS; k++) {
        i[k] = (float)cos(2 * pi * hz / 240000 * (double)k);
        q[k] = (float)sin(2 * pi * hz / 240000 * (double)k);
        in += (double)i[k] * i[k] + (double)q[k] * q[k];
    }
    if (tl_decimator_new_at(&i_half, 10, cutoff, taps, TAPS, i_history, TAPS - 1) != TL_NONE ||
        tl_decimator_new_at(&q_half, 10, cutoff, taps, TAPS, q_history, TAPS - 1) != TL_NONE ||
        tl_decimator_process_into_at(&i_half, taps, TAPS, i_history, TAPS - 1, i, PAIRS, i_out, OUT, &count) !=
            TL_NONE ||
        tl_decimator_process_into_at(&q_half, taps, TAPS, q_history, TAPS - 1, q, PAIRS, q_out, OUT, &count) !=
            TL_NONE) {
        return (double)NAN;
    }
    for (k = FULL; k < count; k++) {
        out += (double)i_out[k] * i_out[k] + (double)q_out[k] * q_out[k];
    }
    return 10 * log10(out / (double)(count - FULL) / (in / PAIRS));
}

int main(void) {
    static const double hz[] = {3000, 5000, 8000, 12500, 15000, 18000, 20000, 25000};
    static const float parts[] = {0.75f, 0.5f, 0.4f};
    size_t row, column;
    for (row = 0; row < sizeof hz / sizeof *hz; row++) {
        printf("| %g kHz |", hz[row] / 1000);
        for (column = 0; column < 3; column++) {
            double db = passes(hz[row], parts[column] / 10);
            if (!isfinite(db)) {
                fprintf(stderr, "neighbours: a call was refused\n");
                return 1;
            }
            printf(" %.1f |", fabs(db) < 0.05 ? 0.0 : db);
        }
        printf("\n");
    }
    return 0;
}
