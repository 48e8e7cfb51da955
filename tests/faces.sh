#!/usr/bin/env bash
# What C and Rust see of the library: the declarations against the source, the archive's symbols, the C example and the
# C checks, the guide's own C and Rust, the Rust crate's tests and its example, and the demo: on cut pipes, and as
# build/demo by itself. It needs `make lib` and `make demo`.
#
# The archive that ships is for x86-64. What is linked and run here is target/here/libthreshlantern.a; where there is
# none, a line says so. The Rust crate finds it by THRESHLANTERN_LIB.
set -euo pipefail
cd "$(dirname "$0")/.."
tests/need.sh python3 nm objdump diff cmp
for made in build/libthreshlantern.a crates/demo/out/demo build/demo; do
  if [ ! -f "$made" ]; then
    echo "faces: $made is missing; 'make lib' and 'make demo' make both" >&2
    exit 2
  fi
done
work=$(mktemp -d)
trap 'rm -rf "$work"' EXIT
flags="-std=c99 -Wall -Wextra -pedantic -Werror -Ibuild"

fail() {
  echo "faces: $*" >&2
  exit 1
}

# Both examples and the guide's receivers must give the demo's bytes: on its stored input, which is odd, and on the
# capture.
same() { # NAME PROGRAM..
  name=$1
  shift
  "$@" < crates/demo/stdin > "$work/got" 2> "$work/said"
  cmp "$work/got" crates/demo/stdout
  diff <(echo 'odd input') "$work/said"
  "$@" < captures/alarm.cu8 | cmp - "$work/demo"
  echo "faces: $name gives the demo's bytes"
}

# What a program says, and its status, where a descriptor fails: one line and not 0.
says() { # NAME WHAT LINE STATUS, with what was said in $work/said
  [ "$4" -ne 0 ] || fail "$1, $2: status 0"
  diff <(echo "$3") "$work/said" || fail "$1, $2: not what it should say"
}

# An example on a full disk, on a folder and, unless the language's runtime opens them anew, on closed descriptors.
failing() { # NAME PROGRAM SUFFIX-OF-A-LINE [closed]
  code=0; "$2" < captures/alarm.cu8 > /dev/full 2> "$work/said" || code=$?
  says "$1" "a full disk" "write: No space left on device${3/N/28}" "$code"
  code=0; "$2" < / > "$work/got" 2> "$work/said" || code=$?
  says "$1" "a folder" "read: Is a directory${3/N/21}" "$code"
  [ ! -s "$work/got" ] || fail "$1, a folder: something was written"
  if [ "${4:-}" = closed ]; then
    code=0; "$2" <&- > "$work/got" 2> "$work/said" || code=$?
    says "$1" "a closed input" "read: Bad file descriptor" "$code"
    code=0; "$2" < captures/alarm.cu8 >&- 2> "$work/said" || code=$?
    says "$1" "a closed output" "write: Bad file descriptor" "$code"
  fi
  echo "faces: $1 reports a read and a write that fail"
}

c_face() {
  for program in example check; do
    # shellcheck disable=SC2086
    cc $flags "bindings/c/$program.c" "$archive" -o "$work/$program"
    if command -v c++ >/dev/null 2>&1; then
      # shellcheck disable=SC2086
      c++ -x c++ ${flags/c99/c++11} -fsyntax-only "bindings/c/$program.c"
    fi
  done
  "$work/check"
  same "the C example" "$work/example"
  failing "the C example" "$work/example" "" closed
  for receiver in "$PWD/bindings/c/example.c" "$work/guide.c"; do
    # shellcheck disable=SC2086
    cc $flags -DRECEIVER="\"$receiver\"" tests/receiver.c "$archive" -o "$work/receiver"
    "$work/receiver"
  done
  same "the guide's C" "$work/receiver" filter
  echo "faces: the C receivers refuse a bad block whole"
}

# An empty slice may have any pointer, NULL too.
empty() {
  tests/empty.py > "$work/empty.c"
  # shellcheck disable=SC2086
  cc $flags "$work/empty.c" "$archive" -o "$work/empty"
  "$work/empty"
  if ! command -v c++ >/dev/null 2>&1; then
    echo "faces: c++ is not on the PATH, so an empty std::vector was not tried"
    return
  fi
  cat > "$work/vector.cc" <<'CC'
#include <vector>
#include "threshlantern.h"
int main() {
    std::vector<uint8_t> bytes;
    std::vector<float> in, out;
    tl_fm_done done = tl_fm_process_into(tl_fm_new().state, in.data(), in.size(), out.data(), out.size());
    uint32_t converted = tl_convert(bytes.data(), bytes.size(), out.data(), out.size());
    return done.refusal != TL_NONE || done.count != 0 || converted != TL_NONE;
}
CC
  # shellcheck disable=SC2086
  c++ ${flags/c99/c++11} "$work/vector.cc" "$archive" -o "$work/vector"
  "$work/vector"
  echo "faces: an empty std::vector's data() is accepted from C++"
}

# A program of its own with the crate as dependency, as a user's: what is on standard input, and then tests/receiver.rs.
rust_receiver() { # NAME
  mkdir -p "target/faces/$1/src"
  cat > "target/faces/$1/Cargo.toml" <<TOML
[package]
name = "$1"
version = "0.0.0"
edition = "2021"

[dependencies]
threshlantern = { path = "$PWD/bindings/rust" }

[workspace]
TOML
  cat - tests/receiver.rs > "target/faces/$1/src/main.rs"
  cargo build --quiet --offline --release --manifest-path "target/faces/$1/Cargo.toml"
  "$CARGO_TARGET_DIR/release/$1"
}

rust_crate() {
  if ! command -v cargo >/dev/null 2>&1; then
    echo "faces: cargo is not on the PATH, so the Rust crate was not tested"
    return
  fi
  export CARGO_TARGET_DIR=$PWD/target/cargo
  cargo test --quiet --offline --manifest-path bindings/rust/Cargo.toml
  cargo build --quiet --offline --release --manifest-path bindings/rust/Cargo.toml --example demo
  same "the Rust example" "$CARGO_TARGET_DIR/release/examples/demo"
  failing "the Rust example" "$CARGO_TARGET_DIR/release/examples/demo" " (os error N)"
  sed 's/^fn main()/#[allow(dead_code)]\nfn main_of_the_example()/' bindings/rust/examples/demo.rs |
    rust_receiver example_receiver
  rust_receiver guide_receiver < "$work/guide.rs"
  same "the guide's Rust" "$CARGO_TARGET_DIR/release/guide_receiver" filter
  echo "faces: the Rust receivers refuse a bad block whole"
}

# The crate without the archive, with one for another machine, with one that is none, and with a relative folder. `cargo
# check` and `cargo doc` must work without it; a build must stop, and a line must say why.
rust_archive() {
  if ! command -v cargo >/dev/null 2>&1; then
    echo "faces: cargo is not on the PATH, so the crate was not built without its archive"
    return
  fi
  export CARGO_TARGET_DIR=$PWD/target/cargo-odd
  crate="--offline --manifest-path $PWD/bindings/rust/Cargo.toml"
  mkdir "$work/missing" "$work/other" "$work/text"
  echo "no archive" > "$work/text/libthreshlantern.a"
  python3 - "$work/other/libthreshlantern.a" "$(uname -m)" <<'PY'
import sys
machine = 183 if sys.argv[2] == "x86_64" else 62
elf = b"\x7fELF\x02\x01\x01" + bytes(9) + b"\x01\x00" + machine.to_bytes(2, "little") + bytes(44)
with open(sys.argv[1], "wb") as file:
    file.write(b"!<arch>\n")
    for name, data in ((b"/", b"abc\n"), (b"other.o/", elf)):
        file.write(b"%-16s%-12d%-6d%-6d%-8d%-10d`\n%s" % (name, 0, 0, 0, 644, len(data), data))
PY
  for case in "missing:cannot be read (No such file or directory" "text:is no archive of ELF objects" \
    "other:is for .*, and the target is $(uname -m)"; do
    odd=${case%%:*}
    for command in check build; do
      code=0
      # shellcheck disable=SC2086
      THRESHLANTERN_LIB=$work/$odd cargo $command $crate > /dev/null 2> "$work/said" || code=$?
      grep -q "warning: .*$work/$odd/libthreshlantern.a ${case#*:}.*THRESHLANTERN_LIB" "$work/said" ||
        fail "cargo $command, archive $odd: no line says why nothing can be linked"
      if [ "$command" = check ]; then
        [ "$code" -eq 0 ] || fail "cargo check, archive $odd: it fails"
      else
        [ "$code" -ne 0 ] || fail "cargo build, archive $odd: it does not stop"
        grep -q "could not find native static library" "$work/said" ||
          fail "cargo build, archive $odd: it stops elsewhere"
      fi
    done
  done
  # shellcheck disable=SC2086
  THRESHLANTERN_LIB=$work/missing cargo doc --quiet --no-deps $crate 2> /dev/null ||
    fail "cargo doc fails without the archive"
  # shellcheck disable=SC2086
  (cd / && THRESHLANTERN_LIB=../../target/here cargo build --quiet $crate --example demo) ||
    fail "a relative THRESHLANTERN_LIB does not count from the crate's folder"
  echo "faces: without its archive the crate is checked and documented; a build stops, and a line says why"
}

# The guide's C and Rust, taken from the guide. The C compiles as it stands.
guide() {
  for language in c rust; do
    sed -n "/^\`\`\`$language\$/,/^\`\`\`\$/{/^\`\`\`/d;p}" docs/GUIDE.md > "$work/guide.$language"
    [ -s "$work/guide.$language" ] || fail "the guide has no $language"
  done
  mv "$work/guide.rust" "$work/guide.rs"
  # shellcheck disable=SC2086
  cc $flags -fsyntax-only "$work/guide.c"
  echo "faces: the guide's C compiles without a warning"
}

tests/declared.py
tests/symbols.sh
tests/need.sh cc
guide
tests/listen.sh
tests/demo.sh
export THRESHLANTERN_LIB=$PWD/target/here
archive=$THRESHLANTERN_LIB/libthreshlantern.a
if [ ! -f "$archive" ]; then
  echo "faces: the library is compiled for x86-64 and this machine is $(uname -m): the C programs, the Rust crate," \
    "the stack and the guide's table were not tried"
  exit 0
fi
tests/run.sh demo < captures/alarm.cu8 > "$work/demo"
same "build/demo, run as it is," build/demo
c_face
empty
tests/stack.py
tests/neighbours.sh --check
rust_crate
rust_archive
echo "faces: all as it should be"
