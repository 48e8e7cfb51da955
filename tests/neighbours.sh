#!/usr/bin/env bash
# Measures what a decimator of factor 10 lets through of stations beside its channel, and prints it as docs/GUIDE.md's
# table: tests/neighbours.sh [--check]. With --check it prints a line, and fails where the guide has another table. It
# needs `make lib`.
set -euo pipefail
cd "$(dirname "$0")/.."
tests/need.sh cc diff
if [ ! -f target/here/libthreshlantern.a ]; then
  echo "neighbours: nothing here can link the library, so the guide's table was not measured"
  exit 0
fi
work=$(mktemp -d)
trap 'rm -rf "$work"' EXIT
flags="-std=c99 -Wall -Wextra -pedantic -Werror -Ibuild"
# shellcheck disable=SC2086
cc $flags tests/neighbours.c target/here/libthreshlantern.a -lm -o "$work/neighbours"
{
  # shellcheck disable=SC2016
  echo '| Off the centre | 0.75 / 10, of `with_factor` | 0.5 / 10 | 0.4 / 10 |'
  echo '|---|---|---|---|'
  "$work/neighbours"
} > "$work/table"
if [ "${1:-}" != --check ]; then
  cat "$work/table"
  exit 0
fi
sed -n '/^| Off the centre /,/^$/{/^$/d;p}' docs/GUIDE.md | diff - "$work/table" || {
  echo "neighbours: the guide's table is not what 'make neighbours' measures" >&2
  exit 1
}
echo "neighbours: the guide's table is what the decimator lets through"
