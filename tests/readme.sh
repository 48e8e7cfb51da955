#!/usr/bin/env bash
# The README's example, taken from the README: it must compile without a warning and print what the README says.
set -euo pipefail
cd "$(dirname "$0")/.."
tests/need.sh cc python3
work=$(mktemp -d)
trap 'rm -rf "$work"' EXIT
python3 - "$work" <<'PY'
import re, sys
text = open('README.md').read()
code = re.search(r'```c\n(.*?)```', text, re.S).group(1)
said = re.search(r'^prints `(.*?)`', text, re.M).group(1)
open(sys.argv[1] + '/use.c', 'w').write(code)
open(sys.argv[1] + '/said', 'w').write(said + '\n')
PY
cc -Wall -Wextra -Werror -Ibuild "$work/use.c" target/here/libthreshlantern.a -o "$work/use"
"$work/use" > "$work/got"
diff "$work/said" "$work/got"
echo "readme: the example prints what the README says"
