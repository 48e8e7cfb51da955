#!/usr/bin/env python3
"""Writes captures/alarm.cu8, the capture that `make listen` plays, or says whether it is what this script makes.

What a dongle at 240,000 samples a second would give on a quiet channel: I and Q as bytes, 127.5 the middle, of one
second of narrow-band FM with 5 kHz of deviation. What is sent is the two-tone alarm of maritime radiotelephony: 2200
Hz and 1300 Hz in turn, a quarter of a second each. A little noise of a fixed generator lies over it.

All of it is worked out in whole numbers, so that every machine makes the same bytes.

    captures/make.py            writes the file
    captures/make.py --check    exit status 1 where the file is not what this writes
"""
import os
import sys

PATH = os.path.join(os.path.dirname(os.path.abspath(__file__)), "alarm.cu8")

RATE = 240_000
DEVIATION = 5_000
TONES = [2200, 1300, 2200, 1300]
AMPLITUDE = 100  # of 127.5

# A turn of the carrier is 2^32, the sine of 1 is 2^20.
TURN = 1 << 32
ONE = 1 << 20


def sines():
    """sin(2 pi n / 1024) x 2^20 for n below 1024, by its series in whole numbers, at 2^100."""
    unit = 1 << 100
    pi = 3141592653589793238462643383279502884197 * unit // 10**39
    table = []
    for n in range(1024):
        x = 2 * pi * n // 1024
        term, total = x, 0
        for k in range(1, 60, 2):
            total += term
            term = -term * x // unit * x // unit // ((k + 1) * (k + 2))
        table.append((total + unit // ONE // 2) * ONE // unit)
    return table


def noise():
    """Whole numbers from -2 to 2, of a linear congruence's high bits."""
    state = 1
    while True:
        state = (state * 6364136223846793005 + 1442695040888963407) % (1 << 64)
        yield (state >> 40) % 5 - 2


def capture():
    sine = sines()
    rough = noise()
    phase = 0
    out = bytearray()
    for tone in TONES:
        for n in range(RATE // len(TONES)):
            sent = sine[n * tone * 1024 // RATE % 1024]
            phase = (phase + DEVIATION * TURN // RATE * sent // ONE) % TURN
            place = phase * 1024 // TURN
            for value in (sine[(place + 256) % 1024], sine[place]):
                # 127.5 + value, in halves, rounded down; the noise is in 1/2 of a step
                doubled = 255 + 2 * AMPLITUDE * value // ONE + next(rough)
                out.append(max(0, min(255, doubled // 2)))
    return bytes(out)


def main():
    made = capture()
    if sys.argv[1:] == ["--check"]:
        with open(PATH, "rb") as file:
            if file.read() != made:
                sys.exit("captures/make.py: alarm.cu8 is not what this script makes")
        print("captures: alarm.cu8 is what captures/make.py makes, %d bytes" % len(made))
    else:
        with open(PATH, "wb") as file:
            file.write(made)
        print("captures/alarm.cu8: %d bytes" % len(made))


main()
