#!/usr/bin/env bash
# Plants each wrong answer in turn and sees that the comparison finds it every time: a comparison that cannot
# fail shows nothing. One that no call of the list has a place for, as a struck count where no stage strikes, is
# not planted, and that is said. Words (`--count 1000`) go to the programs. Exit status: 0 all found; 1 one missed;
# otherwise that of oracle/run.sh, which could not build them.
set -eu

root=$(cd "$(dirname "${BASH_SOURCE[0]}")/.." && pwd)
words=(--seed 1 --count 20000 "$@")
work=$(mktemp -d)
trap 'rm -rf "$work"' EXIT

# One plant: what the program told, and the verdict, in a file of its own.
try() { # PROGRAM PLANT
  ended=0
  lines=$("$root/target/oracle/$1" "${words[@]}" --plant "$2") || ended=$?
  told=$(grep "^plant $2: " <<<"$lines" || true)
  case "$ended $told" in
    "0 plant $2: no call here"*) verdict='not planted here' ;;
    *": 0 planted, 0 missed") verdict='MISSED: it fits no call' ;;
    "1 plant $2: "*" planted, 0 missed") verdict=found ;;
    *) verdict="MISSED: exit status $ended" ;;
  esac
  echo "$1: ${told:-plant $2}: $verdict" >"$work/$1.$2"
}

for program in numbers stages; do
  built=$root/target/oracle/$program
  rm -f "$built"
  ended=0
  list=$("$root/oracle/run.sh" "$program" --plant list) || ended=$?
  if [ ! -x "$built" ]; then
    echo "$list"
    if [ "$ended" != 0 ]; then exit "$ended"; fi
    continue
  fi
  # Unfalsified, the same run finds nothing; otherwise what it finds might not be the plant.
  if ! honest=$("$built" "${words[@]}"); then
    echo "$honest"
    echo "plants: $program differs with nothing planted"
    exit 1
  fi
  # Two at a time.
  while read -r plant _; do
    while [ "$(jobs -rp | wc -l)" -ge 2 ]; do wait -n; done
    try "$program" "$plant" &
  done <<<"$list"
  wait
  while read -r plant _; do cat "$work/$program.$plant"; done <<<"$list"
done
count() { cat "$work"/*.* 2>/dev/null | grep -c ": $1" || true; }
echo "plants: $(count found) found, $(count MISSED) missed, $(count 'not planted here') not planted here"
[ "$(count MISSED)" = 0 ]
