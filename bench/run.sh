#!/usr/bin/env bash
# Builds and runs the measurement: the library beside the Rust original in one process, at opt-level 3 and then with the
# original compiled for this very processor. Words go to the program; --help lists them.
set -eu

root=$(cd "$(dirname "${BASH_SOURCE[0]}")/.." && pwd)
target=$root/target/bench

"$root/tests/need.sh" rustc python3 cc
if [ ! -f "$root/target/here/libthreshlantern.a" ]; then
  echo "bench: there is no archive that this machine, $(uname -m), can link (target/here, by 'make lib'): nothing to measure" >&2
  exit 2
fi

found=0
"$root/oracle/original.py" || found=$?
if [ "$found" = 3 ]; then exit 0; fi
if [ "$found" != 0 ]; then exit 2; fi

mkdir -p "$target"
build() {
  out=$1
  shift
  rustc --edition 2021 -C opt-level=3 -C debug-assertions=off "$@" -L "native=$root/target/here" -o "$target/$out" "$root/bench/main.rs"
}

# Other libraries, where they can be linked.
others=()
missing=()
other() { # CFG LIBRARY WHAT
  if echo 'int main(void) { return 0; }' | cc -x c - "-l$2" -o "$target/linked" 2>/dev/null; then
    others+=(--cfg "$1")
  else
    missing+=("bench: $3 is not installed, so it was not measured")
  fi
}
other liquid liquid "liquid-dsp (libliquid-dev)"
other volk volk "VOLK (libvolk2-dev)"
build plain --check-cfg 'cfg(liquid, volk)' "${others[@]}"
build native --check-cfg 'cfg(liquid, volk)' -C target-cpu=native

LC_ALL=C lscpu 2>/dev/null | sed -n 's/^Model name: */processor: /p' || true
echo
echo "the original at opt-level 3"
"$target/plain" "$@"
echo
echo "the original at opt-level 3 and target-cpu=native"
"$target/native" "$@"
if [ "${#missing[@]}" -gt 0 ]; then printf '%s\n' "${missing[@]}"; fi
