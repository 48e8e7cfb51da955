#!/usr/bin/env bash
# The gate. docs/PROMISES.md, then everything by `rt ci`: layout, proofs, the edits that must be refused, the programs (the
# stored answers of the original among them). Then whether the replay of those answers and the trial of edits can fail, the
# faces (header, examples, crate, demo), the README's example, and then the comparison with Rust and planted errors that it
# must find. Where rustc or the original's source are not at hand, a line says so.
# The last line is N passed, 0 failed: that of `rt ci`.
set -euo pipefail
cd "$(dirname "$0")/.."
tests/need.sh rt python3

tests/promises.py
log=$(mktemp)
trap 'rm -f "$log"' EXIT
rt ci | tee "$log"
verdict=$(tail -n 1 "$log")
if ! [[ $verdict =~ ^[0-9]+\ passed,\ 0\ failed$ ]]; then
  echo "gate: rt ci did not end with 'N passed, 0 failed'" >&2
  exit 1
fi
# An edit that shows nothing fails nothing in `rt ci`. Here it does.
tests/refused.py --told "$log"

tests/promises.py --plants
tests/refused.py --plants
tests/vectors.py
make --no-print-directory lib demo
tests/faces.sh
if [ ! -f target/here/libthreshlantern.a ]; then
  echo "gate: nothing here can link the library: the README's example and the comparison with Rust were skipped"
  echo "$verdict"
  exit 0
fi
tests/readme.sh
compared=0
oracle/run.sh || compared=$?
case "$compared" in
  0) oracle/plants.sh ;;
  3) ;;
  *) exit 1 ;;
esac
echo "$verdict"
