#!/bin/sh
# Sets the reader of requests and replies beside what a real Ruby sent: each file q_*.hex (a request) or a_*.hex (a reply)
# of the folder vectors must be read whole, or be refused, as its INDEX.md says. What must be shown of it is found here by
# the sizes of its packets alone. Prints a line for each difference, and ends with a count; the status is 1 where there is
# a difference. PEER names the folder that holds vectors (peer if none is named).
set -eu
cd "$(dirname "$0")/.."
vectors=${PEER:-peer}/vectors
if [ ! -d "$vectors" ]; then
  echo "No folder of packets from Ruby here: nothing is compared."
  exit 0
fi
program=$(sh peer/built.sh packet_show)
work=$(mktemp -d)
trap 'rm -rf "$work"' EXIT

# A line for each file: its name, what the index says of it, and its bytes.
for file in "$vectors"/[qa]_*.hex; do
  name=$(basename "$file" .hex)
  profile=$(sed -n "s/^| \`$name\.hex\` |.*| \([^|]*\) |\$/\1/p" "$vectors/INDEX.md")
  echo "$name|$profile|$(tr -d ' \n' <"$file")" >>"$work/files"
done

# What the program is asked, and what it must show.
awk -F '|' -v asked="$work/asked" -v wanted="$work/wanted" '
  function number(hex,  i, n) {
    n = 0
    for (i = 1; i <= length(hex); i++) n = 16 * n + index("0123456789abcdef", substr(hex, i, 1)) - 1
    return n
  }

  # Takes the bytes apart into body[1] to body[count], and says whether they are whole packets.
  function take_apart(hex,  size) {
    count = 0
    while (hex != "") {
      size = number(substr(hex, 1, 8))
      if (length(hex) < 8 + 2 * size) return 0
      body[++count] = substr(hex, 9, 2 * size)
      hex = substr(hex, 9 + 2 * size)
    }
    return 1
  }

  # The text of a short dump of a text, with or without an encoding.
  function text(dump,  i, size, out) {
    sub(/^040849?22/, "", dump)
    size = number(substr(dump, 1, 2)) - 5
    out = ""
    for (i = 1; i <= size; i++) out = out sprintf("%c", number(substr(dump, 1 + 2 * i, 2)))
    return out
  }

  function request() {
    return "request " text(body[2]) " " count - 4 " " (body[count] == "040830" ? "no block" : "block") ", 0 left"
  }

  function reply() {
    return "reply " (body[1] == "040846" || body[1] == "040830" ? "false" : "true") ", 0 left"
  }

  # Of "packet 4 refused: BadType(0x7b) at 3" the refusal by its number, and the bytes of the packets behind that one.
  function refused(profile,  words, why, i, left) {
    split(profile, words, " ")
    why = words[4]
    sub(/\(.*/, "", why)
    left = 0
    for (i = words[2] + 1; i <= count; i++) left += 4 + length(body[i]) / 2
    return "refused: marshal refusal " numbers[why] " at " words[6] ", " left " left"
  }

  BEGIN {
    # docs/MARSHAL.md, Refusals, has the reasons in this order.
    last = split("Short Version BadType Encoding BigInteger Length SymbolLink ObjectLink Cyclic DuplicateKey " \
      "TooManyPairs TooDeep TooManyNodes BadReference Name", whys, " ")
    for (i = 1; i <= last; i++) numbers[whys[i]] = i
  }

  {
    is_request = $1 ~ /^q_/
    print (is_request ? "request " : "reply ") $3 >asked
    if (!take_apart($3)) print "whole packets in the file" >wanted
    else if ($2 ~ /^packet [0-9]+ refused: /) print refused($2) >wanted
    else if ($2 != "all packets read") print "something else in INDEX.md" >wanted
    else if (is_request) print request() >wanted
    else print reply() >wanted
  }
' "$work/files"

"$program" <"$work/asked" >"$work/shown" || echo "The program ended with status $?."

awk -F '|' -v wanted="$work/wanted" -v shown="$work/shown" '
  {
    want = ""; show = ""
    getline want <wanted
    if ((getline show <shown) <= 0) show = "nothing"
    if (want != show) { print $1 ": wanted " want ", shown " show; wrong++ }
  }
  END { print NR " requests and replies, " wrong + 0 " differences"; exit wrong > 0 }
' "$work/files"
