/* Tries a receiver that users copy: that of docs/GUIDE.md or of bindings/c/example.c, whose file RECEIVER names. Built
 * and run by tests/faces.sh. With the word `filter` it is a program like the example; without, it tries blocks that are
 * refused: one that is too long, odd ones, and one that is refused after some of its calls were accepted. */
#include <math.h>
#include <stdio.h>
#include <string.h>

#define main main_of_the_example
#include RECEIVER
#undef main

enum { BLOCK = 1234 };

static struct {
    receiver r;
    uint8_t guard[4 * BYTES]; /* what a receiver that writes too far would write to */
} here, before;
static uint8_t bytes[2 * BYTES];
static size_t count, struck;
static int broken;

#define EXPECT(fact) \
    do { \
        if (!(fact)) { \
            broken++; \
            printf("receiver.c: %s, line %d does not hold: %s\n", RECEIVER, __LINE__, #fact); \
        } \
    } while (0)

/* A block that must be refused with this number, before anything is written. */
static void untouched(size_t n, uint32_t number) {
    memcpy(&before, &here, sizeof here);
    count = struck = 99;
    EXPECT(receive(&here.r, bytes, n, &count, &struck) == number);
    EXPECT(count == 0 && struck == 0);
    EXPECT(memcmp(&before, &here, sizeof here) == 0);
}

/* A block that must be refused with this number after some calls were accepted: the receiver remembers what it did. */
static void kept(uint32_t number) {
    memory was = here.r.now;
    count = struck = 99;
    EXPECT(receive(&here.r, bytes, BLOCK, &count, &struck) == number);
    EXPECT(count == 0 && struck == 0);
    EXPECT(memcmp(&was, &here.r.now, sizeof was) == 0);
}

static size_t sound(receiver *r, size_t block, float *out) {
    EXPECT(receive(r, bytes + block * BLOCK, BLOCK, &count, &struck) == TL_NONE && struck == 0);
    memcpy(out, r->sound, count * sizeof(float));
    return count;
}

static void refusals(void) {
    static receiver other;
    static float want[ROOM], got[ROOM];
    memory good;
    size_t k;
    for (k = 0; k < sizeof bytes; k++) {
        bytes[k] = (uint8_t)(k * k / 7 + k / 3);
    }
    EXPECT(receiver_new(&here.r) == TL_NONE && receiver_new(&other) == TL_NONE);
    EXPECT(sound(&here.r, 0, got) == 62 && sound(&other, 0, want) == 62);
    for (k = 1; k < 4; k++) {
        untouched(BYTES + 2, TL_LIMIT);
        untouched(BYTES + 1, TL_LIMIT);
        untouched(2 * BYTES, TL_LIMIT);
        untouched((size_t)-1, TL_LIMIT);
        untouched(BYTES - 1, TL_LENGTH);
        untouched(1, TL_LENGTH);
        good = here.r.now;
        here.r.now.q.state.phase = 99; /* Q's decimator is refused, I's is not */
        kept(TL_SETTING);
        here.r.now = good;
        here.r.now.fm.last_phase = NAN; /* both decimators are accepted, FM is not */
        kept(TL_STATE);
        here.r.now = good;
        EXPECT(sound(&here.r, k, got) == sound(&other, k, want));
        EXPECT(memcmp(got, want, count * sizeof(float)) == 0 && count > 0);
    }
    EXPECT(receive(&here.r, bytes, 0, &count, &struck) == TL_NONE && count == 0);
    EXPECT(receive(&here.r, bytes, BYTES, &count, &struck) == TL_NONE && count >= BYTES / 20);
}

static int filter(void) {
    size_t n;
    if (receiver_new(&here.r) != TL_NONE) {
        return 1;
    }
    while ((n = fread(bytes, 1, BYTES, stdin)) != 0) {
        if (n % 2 != 0) {
            fprintf(stderr, "odd input\n");
        }
        if (receive(&here.r, bytes, n - n % 2, &count, &struck) != TL_NONE) {
            return 1;
        }
        fwrite(here.r.sound, sizeof(float), count, stdout);
    }
    return fflush(stdout) != 0;
}

int main(int words, char **word) {
    if (words == 2 && strcmp(word[1], "filter") == 0) {
        return filter();
    }
    refusals();
    return broken != 0;
}
