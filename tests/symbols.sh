#!/usr/bin/env bash
# The archive exports what bindings/c/symbols.txt lists and nothing else, and takes no more from the C library. It needs
# build/libthreshlantern.a, which `make lib` makes.
set -euo pipefail
cd "$(dirname "$0")/.."
tests/need.sh nm diff
list=bindings/c/symbols.txt
found=$(nm build/libthreshlantern.a | sed -n 's/.* \([A-TV-Z]\) \([^ ]*\)$/\1 \2/p; s/.* \(U\) \([^ ]*\)$/\1 \2/p' | LC_ALL=C sort -u)
diff <(grep -v '^#' "$list") <(echo "$found") || { echo "symbols: the archive is not what $list says" >&2; exit 1; }
echo "symbols: $(grep -c '^T ' "$list") functions exported and $(grep -c '^U ' "$list") taken, as $list says"
