#!/usr/bin/env python3
"""Turns the sound of captures/alarm.cu8 into a .wav: tests/wav.py FROM.f32 TO.wav

The capture has 240,000 pairs a second and the demo keeps each tenth, so the sound has 24,000 samples a second. Full
scale is a turn of PI from pair to pair, 12 kHz; the capture swings by 5 kHz, so 0.42. Each quarter of a second must
have its tone, or this fails.
"""
import array
import sys
import wave

RATE = 24_000
TONES = [2200, 1300, 2200, 1300]


def samples(path):
    with open(path, "rb") as file:
        data = array.array("f", file.read())
    if sys.byteorder == "big":
        data.byteswap()
    return data


def tone(part):
    """Half the changes of sign in a second."""
    changes = sum((a < 0) != (b < 0) for a, b in zip(part, part[1:]))
    return changes * RATE / len(part) / 2


def main():
    source, target = sys.argv[1:]
    sound = samples(source)
    if len(sound) != RATE:
        sys.exit("wav.py: %s has %d samples, and not a second of them" % (source, len(sound)))
    quarter = RATE // len(TONES)
    for k, sent in enumerate(TONES):
        # The filter's first samples are of what was before: nothing, or the other tone.
        heard = tone(sound[k * quarter + 200 : (k + 1) * quarter])
        if abs(heard - sent) > 10:
            sys.exit("wav.py: %.0f Hz heard in quarter %d, and %d Hz sent" % (heard, k + 1, sent))
    with wave.open(target, "wb") as file:
        file.setnchannels(1)
        file.setsampwidth(2)
        file.setframerate(RATE)
        whole = array.array("h", (round(max(-1.0, min(1.0, x)) * 32767) for x in sound))
        if sys.byteorder == "big":
            whole.byteswap()
        file.writeframes(whole.tobytes())
    print("listen: %s has one second of the two-tone alarm, 2200 and 1300 Hz in turn, out of captures/alarm.cu8; hear it with 'aplay %s' or any player (%s has the demo's own f32)" % (target, target, source))


main()
