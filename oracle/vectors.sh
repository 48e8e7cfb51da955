#!/usr/bin/env bash
# Stores a sample of the judge's answers in crates/vectors/data/answers.txt, and what its replay must then print in
# crates/vectors/stdout. Seed and count stand here, so the same source gives the same sample.
set -eu

root=$(cd "$(dirname "${BASH_SOURCE[0]}")/.." && pwd)
vectors=$root/crates/vectors
work=$(mktemp -d)
trap 'rm -rf "$work"' EXIT

"$root/oracle/run.sh" --seed 1 --count 20000 --sample "$work/answers.txt"
python3 - "$vectors/data/calls.txt" "$work" <<'PY'
import sys

names, work = sys.argv[1:]
names = [line.rstrip() for line in open(names)]
cases = [0] * len(names)
# The first 48 lines are calls, of which the first 15 are number work and have no refusal; then the numbers.
calls, numbers = names[:48], 48
for line in open(work + '/answers.txt'):
    words = [int(word, 16) for word in line.split()]
    call, _, singles, patterns, answer_singles, _, slices = words[:7]
    cases[call] += 1
    if call >= 15:
        cases[numbers + words[7 + 3 * slices + singles + 2 * patterns + answer_singles]] += 1
missing = [name for name, n in zip(names, cases) if name and n == 0]
if missing:
    sys.exit('vectors: no case of ' + ', '.join(missing) + '; nothing is stored')
with open(work + '/stdout', 'w') as out:
    for name, n in zip(names, cases):
        if n:
            out.write('%-31s%d of %d agree\n' % (name, n, n))
PY
cp "$work/answers.txt" "$vectors/data/answers.txt"
cp "$work/stdout" "$vectors/stdout"
echo "vectors: $(wc -l <"$vectors/data/answers.txt") cases stored; 'rt ci vectors' replays them"
