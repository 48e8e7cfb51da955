#!/usr/bin/env bash
# Builds and runs the comparison: `numbers` (the number work), `stages` (the stages), or both one after the other
# where none is named. The other words go to the programs; --help lists them. Where neither --seconds nor anything that
# asks for one round is given, both together take about a minute; the number work has a quarter of the time.
#
# It links target/here/libthreshlantern.a, the archive that this machine can run, which `make lib` makes.
#
# Exit status: 0 all agree; 1 something differs; 2 bad usage or a failed build; 3 it cannot run here, and a line says why.
set -eu

root=$(cd "$(dirname "${BASH_SOURCE[0]}")/.." && pwd)
target=$root/target/oracle
archive=$root/target/here/libthreshlantern.a

case "${1-}" in
  numbers | stages) programs=$1; shift ;;
  *) programs='numbers stages' ;;
esac
words=()
seconds=
once=
while [ $# -gt 0 ]; do
  case "$1" in
    --seconds) seconds=${2-}; shift $(($# > 1)) ;;
    # One text tells of both programs, and this one can always be built.
    --help) programs=numbers; once=yes; words+=("$1") ;;
    --count | --plant | --calls | --sample) once=yes; words+=("$1") ;;
    *) words+=("$1") ;;
  esac
  shift
done
if [ -z "$seconds" ] && [ -z "$once" ]; then seconds=60; fi

cannot() {
  echo "compare: $1; the comparison with Rust was skipped"
  exit 3
}
if ! command -v rustc >/dev/null; then cannot "rustc is not on the PATH"; fi
if [ ! -f "$archive" ] && [ -f "$root/build/libthreshlantern.a" ]; then
  cannot "the library is for x86-64, and this machine is $(uname -m)"
fi
if [ ! -f "$archive" ]; then
  echo "oracle/run.sh: target/here/libthreshlantern.a is missing; 'make lib' makes it" >&2
  exit 2
fi

# Debug assertions are off under -O; said all the same, as the original then does what it does in use.
build() {
  mkdir -p "$target"
  rustc --edition 2021 -O -C debug-assertions=off -L "native=$root/target/here" -o "$target/$1" "$root/oracle/$1.rs" || exit 2
}

# 3 where the original's source is not at hand: that is said, and is no failure.
original() {
  if ! command -v python3 >/dev/null; then
    echo "oracle/run.sh: python3 is not on the PATH, and the comparison of the stages needs it" >&2
    exit 2
  fi
  "$root/oracle/original.py"
}

budget() {
  if [ -z "$seconds" ]; then return; fi
  case "$programs $1" in
    'numbers stages numbers') echo "--seconds $((seconds / 4))" ;;
    'numbers stages stages') echo "--seconds $((seconds - seconds / 4))" ;;
    *) echo "--seconds $seconds" ;;
  esac
}

# A call that the archive has and no program compares would say nothing, and fails.
uncompared() {
  nm "$archive" 2>/dev/null | sed -n 's/.* T \(tl_[a-z0-9_]*\)$/\1/p' | sort -u >"$target/exported"
  for program in $programs; do "$target/$program" --calls; done | sort -u >"$target/compared"
  comm -23 "$target/exported" "$target/compared"
}

case "$seconds" in
  *[!0-9]*) echo "oracle/run.sh: --seconds needs a number, not $seconds" >&2; exit 2 ;;
esac
status=0
patched=0
for program in $programs; do
  if [ "$program" = stages ]; then
    original || patched=$?
    if [ "$patched" = 3 ]; then continue; fi
    if [ "$patched" != 0 ]; then exit 2; fi
  fi
  build "$program"
  ended=0
  # shellcheck disable=SC2046
  "$target/$program" $(budget "$program") "${words[@]}" || ended=$?
  # Bad usage would be so twice; a difference in the one is no reason to leave out the other.
  if [ "$ended" -gt 1 ]; then exit "$ended"; fi
  if [ "$ended" = 1 ]; then status=1; fi
done

case " ${words[*]-} " in
  *' --plant '* | *' --calls '* | *' --sample '*) ;;
  *)
    if [ "$programs" = 'numbers stages' ] && [ "$patched" = 0 ] && command -v nm >/dev/null; then
      left=$(uncompared)
      if [ -n "$left" ]; then
        echo "not compared:" $left
        status=1
      fi
    fi ;;
esac
exit "$status"
