#!/bin/sh
# Prints where a program of this repository lies. Where it isn't built, or a source is newer, it is proved and built
# first, which takes some minutes the first time. Takes the name of its crate.
set -eu
top=$(cd "$(dirname "$0")/.." && pwd)
crate=$top/crates/$1
program=$crate/out/$1
if [ ! -x "$program" ] || [ -n "$(find "$top/crates" \( -name '*.rt' -o -name '*.antt' \) -not -path '*/out/*' -newer "$program" -print -quit)" ]; then
  log=$(mktemp)
  # without words and without input the programs do little
  if ! (cd "$crate" && rt run) >"$log" 2>&1 </dev/null; then
    tail -n 20 "$log" >&2
    echo "$1: not built; the log is $log" >&2
    exit 2
  fi
  rm -f "$log"
  touch "$program"
fi
echo "$program"
