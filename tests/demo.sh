#!/usr/bin/env bash
# The demo on cut pipes, on inputs that fail, and against the Rust original's pipeline where its source and rustc are at
# hand. It needs crates/demo/out/demo, which `make demo` makes.
set -eu
cd "$(dirname "$0")/.."
tests/need.sh python3 rt
judge=
if command -v rustc >/dev/null 2>&1; then
  found=0
  oracle/original.py || found=$?
  case $found in
    0)
      judge=target/oracle/demo
      rustc --edition 2021 -O -C debug-assertions=off -o "$judge" oracle/demo.rs
      ;;
    3) ;;
    *) exit "$found" ;;
  esac
fi
captures/make.py --check
tests/demo.py $judge
