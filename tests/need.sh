#!/usr/bin/env bash
# Says in one line which command is missing, and fails. Used by every target that needs one.
for c in "$@"; do
  command -v "$c" >/dev/null 2>&1 && continue
  case "$c" in
    rt) echo "threshlantern: the Rattle toolchain's command 'rt' is not on the PATH; without it nothing can be proved or built" >&2 ;;
    *) echo "threshlantern: '$c' is not on the PATH" >&2 ;;
  esac
  exit 1
done
