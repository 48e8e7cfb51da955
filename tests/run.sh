#!/usr/bin/env bash
# Runs a program that rt built: tests/run.sh NAME [FOLDER], in that folder where one is named. It runs under the toolchain's
# own loader and C library, which may be newer than the machine's. tests/run.sh --words NAME prints what it runs, a word a
# line.
set -eu
cd "$(dirname "$0")/.."
words=
if [ "$1" = --words ]; then
  words=yes
  shift
fi
program=$PWD/crates/$1/out/$1
if [ ! -x "$program" ]; then
  echo "tests/run.sh: $program is missing; 'rt ci' makes it, and 'rt run' in crates/$1" >&2
  exit 2
fi
# The input is the program's.
guide=$(rt doc </dev/null)
libraries=${guide%/*}/toolchain/lib
set -- "${2:-.}" "$libraries/ld-linux-x86-64.so.2" --library-path "$libraries" "$program"
cd "$1"
shift
if [ -n "$words" ]; then
  printf '%s\n' "$@"
else
  exec "$@"
fi
