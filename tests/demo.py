#!/usr/bin/env python3
"""Runs the demo on pipes that are cut in many ways, and on inputs and outputs that fail.

    tests/demo.py [JUDGE]

JUDGE is the original's pipeline (oracle/demo.rs, built by tests/demo.sh); without it the demo is compared with itself
alone. Exit status: 0 all as it should be; 1 something is not.
"""
import fcntl
import os
import random
import resource
import subprocess
import sys
import termios
import threading

ROOT = os.path.dirname(os.path.dirname(os.path.abspath(__file__)))
RUN = os.path.join(ROOT, "tests", "run.sh")
DEMO = subprocess.run([RUN, "--words", "demo"], stdout=subprocess.PIPE, text=True, check=True).stdout.splitlines()
JUDGE = sys.argv[1:]
SEED = 1

done = 0


def expect(true, what):
    global done
    if not true:
        sys.exit("demo: FAILED: " + what)
    done += 1


def whole(words, data):
    """What a program writes to descriptors 1 and 2 on `data` from one pipe."""
    ran = subprocess.run(words, input=data, capture_output=True)
    return ran.stdout, ran.stderr


def in_pieces(data, sizes):
    """The same, a piece at a time: each is written once the one before has been read, so that no read sees two."""
    ran = subprocess.Popen(DEMO, stdin=subprocess.PIPE, stdout=subprocess.PIPE, stderr=subprocess.PIPE)
    got = []
    reader = threading.Thread(target=lambda: got.append(ran.stdout.read()))
    reader.start()
    waits = bytearray(4)
    at = 0
    while at < len(data):
        size = next(sizes)
        os.write(ran.stdin.fileno(), data[at : at + size])
        at += size
        while True:
            fcntl.ioctl(ran.stdin.fileno(), termios.FIONREAD, waits)
            if int.from_bytes(waits, sys.byteorder) == 0:
                break
    ran.stdin.close()
    reader.join()
    said = ran.stderr.read()
    ran.stderr.close()
    ran.stdout.close()
    ran.wait()
    return got[0], said


def always(size):
    while True:
        yield size


def among(rng, sizes):
    while True:
        yield rng.choice(sizes)


def right(data, given, what):
    """Ten pairs give a float; an odd byte gives none, and is told."""
    out, said = given
    expect(len(out) == 4 * -(-(len(data) // 2) // 10), what + ": %d bytes for %d" % (len(out), len(data)))
    expect(said == (b"odd input\n" if len(data) % 2 else b""), what + ": descriptor 2 has %r" % said)


def cuts(rng, data, name):
    one = whole(DEMO, data)
    right(data, one, name)
    if JUDGE:
        expect(one[0] == whole(JUDGE, data)[0], name + ": not what the original's pipeline gives")
    ways = [("1 byte", always(1)), ("7 bytes", always(7))] if len(data) < 5000 else []
    ways += [
        ("8191 bytes", always(8191)),
        ("8193 bytes", always(8193)),
        ("few or many", among(rng, [1, 2, 3, 19, 20, 21, 997, 8192, 20001])),
    ]
    for way, sizes in ways:
        expect(in_pieces(data, sizes) == one, name + ", in pieces of " + way + ": other bytes than uncut")


def failing():
    """What cannot be read or written is told on descriptor 2."""
    ran = subprocess.run(DEMO, stdin=os.open("/", os.O_RDONLY), capture_output=True)
    expect((ran.stdout, ran.stderr) == (b"", b"read: Is a directory\n"), "a read that fails: %r" % ran.stderr)
    with open("/dev/full", "wb") as full:
        ran = subprocess.run(DEMO, input=bytes(100), stdout=full, stderr=subprocess.PIPE)
    expect(ran.stderr == b"write: No space left on device\n", "a write that fails: %r" % ran.stderr)


def memory():
    """A hundredfold input takes no more memory."""

    def most(data):
        whole(DEMO, data)
        return resource.getrusage(resource.RUSAGE_CHILDREN).ru_maxrss

    few = most(bytes(20_000))
    many = most(bytes(2_000_000))
    expect(many - few < 1024, "memory grows with the input: %d KB, then %d KB" % (few, many))


def main():
    rng = random.Random(SEED)
    memory()
    failing()
    for n in (0, 1, 2, 3, 19, 20, 21, 40, 2419, 8191, 8192, 8193, 16384, 99_999):
        cuts(rng, bytes(rng.randrange(256) for _ in range(n)), "%d bytes" % n)
    with open(os.path.join(ROOT, "captures", "alarm.cu8"), "rb") as file:
        capture = file.read()
    cuts(rng, capture, "the capture")
    # From 0 to full scale at a stroke, and the two middles.
    cuts(rng, bytes([0, 255] * 500 + [255, 0] * 500 + [127, 128] * 500), "steps")
    judge = "the original's pipeline" if JUDGE else "itself alone, as the original is not at hand"
    print("demo: %d comparisons with %s, none differs" % (done, judge))


main()
