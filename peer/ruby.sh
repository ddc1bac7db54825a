#!/bin/sh
# Lets a real Ruby load what the program writes. Ruby dumps values of every form, edges and many nested ones; the program
# reads each and writes it; Ruby loads that, and the value must be the one that was dumped. Then Ruby dumps what it
# loaded, and the program, which writes no links to objects, must write of it the same bytes again. Prints a line for
# each difference, and ends with a count; the status is 1 where there is a difference. Takes the number of nested values
# (2000 if none is given).
set -eu
cd "$(dirname "$0")/.."
if ! command -v ruby >/dev/null 2>&1; then
  echo "Ruby is missing: nothing is compared."
  exit 0
fi
program=$(sh peer/built.sh marshal_show)
exec ruby peer/forms.rb "$program" "${1:-2000}"
