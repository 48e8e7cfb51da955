#!/usr/bin/env bash
# Proves and compiles the program NAME, and writes build/NAME: tests/program.sh NAME.
#
# build/NAME is linked here, against this machine's C library, and is for every x86-64 processor. So it runs without the
# toolchain. What rt links itself, crates/NAME/out/NAME, asks for the C library of the toolchain, which an older system does
# not have: that one is copied where there is no compiler to link with, and on a machine that is not x86-64.
set -euo pipefail
cd "$(dirname "$0")/.."
tests/need.sh rt
out=crates/$1/out
rm -f "$out/$1" "$out/$1.o"
# rt runs what it has built, and on an older system that fails: whether it was built is told by the files.
(cd "crates/$1" && rt run --cpu x86-64) </dev/null >/dev/null || true
if [ ! -x "$out/$1" ]; then
  echo "program: $1 was not built" >&2
  exit 1
fi
mkdir -p build
if [ "$(uname -m)" = x86_64 ] && command -v cc >/dev/null 2>&1; then
  guide=$(rt doc)
  cc "$out/$1.o" "${guide%/*}"/c/lib{os,libc}_c.a -lm -o "build/$1"
else
  cp "$out/$1" build/
  echo "program: build/$1 was not linked here, and asks for the toolchain's C library"
fi
