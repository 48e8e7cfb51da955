#!/usr/bin/env python3
"""Sees that each edit of crates/NAME/must-fail shows something.

usage: tests/refused.py --told LOG    by what `rt ci` said
       tests/refused.py --plants      whether an edit that shows nothing is told: some are tried, in a copy elsewhere

`rt ci` makes each edit, checks the crate over what was proved of it, and fails where it is still proved. It passes one
that cannot be made, compiled or read, and one that is refused only because it takes away a name that a proof cites.
Neither shows anything of a contract, so both fail here.
"""
import os
import re
import shutil
import subprocess
import sys
import tempfile

NOTHING = ('BAD EDIT', 'NOT REFUSED', 'NOT TRIED', 'only because a proof file names what the edit took away')


def shows_nothing(lines):
    """The lines that tell of an edit that shows nothing."""
    return [line for line in lines if re.match(r'rt: \S*( \S+\.edit)?: ', line) and any(word in line for word in NOTHING)]


def told(log):
    with open(log, encoding='utf-8', errors='replace') as file:
        lines = file.read().split('\n')
    ok = [line for line in lines if line.startswith('rt: ok;')]
    refused = re.search(r'must-fail edits: (\d+) refused', ''.join(ok))
    bad = re.search(r', [1-9]\d* bad\b', ''.join(ok))
    found = shows_nothing(lines)
    for line in found or (ok if bad else []):
        print('refused: an edit that shows nothing: ' + line)
    if not refused:
        print('refused: no line of rt ci says how many edits were refused')
    if found or bad or not refused:
        return 1
    print('refused: %s edits refused, each by what it changes' % refused.group(1))
    return 0


# ---- that it can fail: edits of the crate converter that show nothing, and a word of what must be told of each

PLANTS = [
    ('same_meaning', 'NOT REFUSED', 'fn demands(n: usize', 'fn demands(n : usize'),
    ('no_program', 'BAD EDIT', 'stage::even(n) & (n == m)', 'stage::even(n) & (n == )'),
    ('not_there', '0 times', '(n % 3 == 0)', '(n % 2 == 1)'),
    ('many_places', '2 times', 'pub fn convert', 'pub fn converted'),
    ('a_call_less', 'a proof file names', '    convert_by(src, dst, MIDDLE)', '    stage::NONE'),
    ('another_name', 'a proof file names', '    convert_by(src, dst, -MIDDLE)', '    let done = convert_by(src, dst, -MIDDLE); done'),
]


def needed(crate, listed):
    """A crate and those below it, by crates.txt."""
    return {crate}.union(*(needed(below, listed) for below in listed[crate] if below in listed))


def plants():
    with open('crates.txt', encoding='utf-8') as file:
        listed = dict(re.findall(r'^(\w+):(.*)$', file.read(), re.M))
    listed = {name: below.split() for name, below in listed.items()}
    with tempfile.TemporaryDirectory() as folder:
        crates = needed('converter', listed)
        for name in crates:
            for part in ('src', 'specs', 'proofs'):
                if os.path.isdir('crates/%s/%s' % (name, part)):
                    shutil.copytree('crates/%s/%s' % (name, part), '%s/crates/%s/%s' % (folder, name, part))
        with open(folder + '/crates.txt', 'w', encoding='utf-8') as out:
            out.writelines('%s: %s\n' % (name, ' '.join(listed[name])) for name in listed if name in crates)
        edits = folder + '/crates/converter/must-fail'
        os.mkdir(edits)
        for label, _, old, new in PLANTS:
            with open('%s/%s.edit' % (edits, label), 'w', encoding='utf-8') as out:
                out.write('file: src/lib.rt\nold: %s\nnew: %s\n' % (old, new))
        ran = subprocess.run(['rt', 'must-fail', 'converter'], cwd=folder, stdout=subprocess.PIPE, text=True)
    found = shows_nothing(ran.stdout.split('\n'))
    missed = 0
    for label, word, _, _ in PLANTS:
        lines = [line for line in found if 'converter/%s.edit: ' % label in line and word in line]
        print('refused: planted %s: %s' % (label, 'told' if lines else 'MISSED'))
        missed += not lines
    if missed:
        print(ran.stdout)
    return 1 if missed else 0


def main(words):
    os.chdir(os.path.dirname(os.path.abspath(__file__)) + '/..')
    if words == ['--plants']:
        return plants()
    if len(words) == 2 and words[0] == '--told':
        return told(words[1])
    sys.exit(__doc__)


if __name__ == '__main__':
    sys.exit(main(sys.argv[1:]))
