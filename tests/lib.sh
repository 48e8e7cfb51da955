#!/usr/bin/env bash
# Proves the library and writes build/libthreshlantern.a and build/threshlantern.h, which ship, and beside them
# target/here/libthreshlantern.a, the same archive, which the tests and the measurement link.
#
# The archive is for every x86-64 processor; left to itself, rt compiles for newer ones alone. The toolchain has no compiler
# for another machine: there is no target/here on one, and a line says so.
set -euo pipefail
cd "$(dirname "$0")/.."
tests/need.sh rt
here=target/here
rm -rf "$here"
mkdir -p "$here" build
(cd crates/threshlantern_c && rt lib --cpu x86-64)
cp crates/threshlantern_c/out/libthreshlantern_c.a build/libthreshlantern.a
cp bindings/c/threshlantern.h build/
machine=$(uname -m)
if [ "$machine" = x86_64 ]; then
  cp build/libthreshlantern.a "$here/"
else
  echo "lib: the toolchain has no compiler for this machine, $machine: nothing here can link the library, which is for x86-64"
fi
