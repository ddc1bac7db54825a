#!/bin/sh
# Sets the reader and the writer of dumps beside dumps that real Ruby made: each file d_*.hex or g_*.hex of the folder
# vectors must be read, refused and written as its INDEX.md says, where NAME.out.hex has what is written otherwise than
# it was read. Prints a line for each difference, and ends with a count; the status is 1 where there is a difference.
# PEER names the folder that holds vectors (peer if none is named).
set -eu
cd "$(dirname "$0")/.."
vectors=${PEER:-peer}/vectors
if [ ! -d "$vectors" ]; then
  echo "No folder of dumps from Ruby here: nothing is compared."
  exit 0
fi
program=$(sh peer/built.sh marshal_show)
work=$(mktemp -d)
trap 'rm -rf "$work"' EXIT

# The number under which the program shows a reason: docs/MARSHAL.md, Refusals, has them in this order.
number_of() {
  number=0
  for why in Short Version BadType Encoding BigInteger Length SymbolLink ObjectLink Cyclic DuplicateKey TooManyPairs \
    TooDeep TooManyNodes BadReference Name; do
    number=$((number + 1))
    [ "$why" != "${1%(*}" ] || echo "$number"
  done
}

# What the index expects of a file, as the program would show it.
wanted_of() {
  profile=$(sed -n "s/^| \`$1\.hex\` |.*| \([^|]*\) |\$/\1/p" "$vectors/INDEX.md")
  case $profile in
    "read, written the same") echo "value $(tr -d ' \n' <"$vectors/$1.hex")" ;;
    "read, written otherwise") echo "value $(tr -d ' \n' <"$vectors/$1.out.hex")" ;;
    "refused: "*" at "*)
      why=${profile#refused: }
      echo "refused $(number_of "${why%% at *}") at ${why##* at }"
      ;;
    *) echo "nothing in INDEX.md" ;;
  esac
}

for file in "$vectors"/[dg]_*.hex; do
  case $file in *.out.hex) continue ;; esac
  name=$(basename "$file" .hex)
  echo "$name" >>"$work/names"
  tr -d ' \n' <"$file" >>"$work/dumps"
  echo >>"$work/dumps"
  wanted_of "$name" >>"$work/wanted"
done

"$program" <"$work/dumps" >"$work/shown" || echo "The program ended with status $?."

awk -v wanted="$work/wanted" -v shown="$work/shown" '
  {
    want = ""; show = ""
    getline want <wanted
    if ((getline show <shown) <= 0) show = "nothing"
    if (want != show) { print $0 ": wanted " want ", shown " show; wrong++ }
  }
  END { print NR " dumps, " wrong + 0 " differences"; exit wrong > 0 }
' "$work/names"
