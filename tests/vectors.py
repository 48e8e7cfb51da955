#!/usr/bin/env python3
"""Can the replay of the stored answers fail? Spoils the file, runs the program, and holds its sums to what must be left.

First the answer of every case is spoilt, so none may agree; then the last word that tells a slice after the call, so
only the cases without one may. It needs crates/vectors/out/vectors, which `rt ci` makes.
"""
import collections
import os
import subprocess
import sys
import tempfile

CRATE = 'crates/vectors'
NUMBERS = 48  # the line of calls.txt where the numbers begin
WORK = 15  # the calls below it are number work, which no number refuses


def other(words, at):
    """Another word there: one bit flipped, or 0 where that would be another NaN."""
    word = int(words[at], 16)
    return '%08X' % (0 if word % 0x80000000 > 0x7F800000 or word % 0x80000000 == 0x7FF80000 else word ^ 1)


class Case:
    """A line of answers.txt, by data/README.md."""

    def __init__(self, line):
        self.words = line.split()
        number = [int(word, 16) for word in self.words]
        self.call, _, singles, patterns, self.answer_singles, answer_patterns, slices = number[:7]
        self.answer = 7 + 3 * slices + singles + 2 * patterns
        refusal = self.answer + self.answer_singles
        self.lines = [self.call] + ([NUMBERS + number[refusal] % 16] if self.call >= WORK else [])
        at = refusal + 2 * answer_patterns
        self.after = None
        for k in range(slices):
            _, before, after = number[7 + 3 * k:10 + 3 * k]
            at += before
            if after != 0xFFFFFFFF:
                at += after
                self.after = at - 1 if after else self.after

    def spoil_answer(self):
        # A pattern's upper word tells whether it is a NaN.
        at = self.answer if self.answer_singles or self.words[self.answer + 1] != '7FF80000' else self.answer + 1
        self.words[at] = other(self.words, at)
        return True

    def spoil_slice(self):
        if self.after is None:
            return False
        self.words[self.after] = other(self.words, self.after)
        return True


def replay(folder, cases):
    """What the program says of each name: agree, of all."""
    with open(folder + '/answers.txt', 'w') as out:
        out.writelines(' '.join(case.words) + '\n' for case in cases)
    run = subprocess.run([os.path.abspath('tests/run.sh'), 'vectors', folder], stdout=subprocess.PIPE, text=True)
    if run.returncode:
        sys.exit('vectors: the program ended with %d' % run.returncode)
    return {line[:31].rstrip(): tuple(map(int, line[31:].split()[:3:2])) for line in run.stdout.splitlines()}


def main():
    os.chdir(os.path.dirname(os.path.abspath(__file__)) + '/..')
    names = [line.rstrip() for line in open(CRATE + '/data/calls.txt')]
    for what, spoil in [('no spoilt answer', Case.spoil_answer), ('no spoilt slice', Case.spoil_slice)]:
        cases = [Case(line) for line in open(CRATE + '/data/answers.txt')]
        # The number that a case is counted under is read from its answer: it stays as it was, wherever that is not spoilt.
        left, all_, spoilt = collections.Counter(), collections.Counter(), 0
        for case in cases:
            is_spoilt = spoil(case)
            spoilt += is_spoilt
            case = case if spoil is Case.spoil_slice else Case(' '.join(case.words))
            for line in case.lines:
                all_[line] += 1
                left[line] += not is_spoilt
        want = {names[line] if line < len(names) else '': (left[line], all_[line]) for line in all_}
        want.pop('', None)
        with tempfile.TemporaryDirectory() as folder:
            with open(folder + '/calls.txt', 'w') as out:
                out.write(open(CRATE + '/data/calls.txt').read())
            got = replay(folder, cases)
        wrong = [name for name in want if got.get(name) != want[name]]
        for name in wrong:
            print('vectors: %s: %s, and not %s' % (name, got.get(name), want[name]))
        if wrong or not spoilt:
            sys.exit(1)
        print('vectors: %s agrees, of %d' % (what, spoilt))


if __name__ == '__main__':
    main()
