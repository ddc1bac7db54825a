#!/bin/sh
# Measures `drbts serve` beside Ruby's own server and beside an echo in C that reads the same requests and answers nil.
# One program in C asks them all, by the bytes that a Ruby client sends, over TCP on this machine, in one run. Takes the
# seconds of each measurement (2 if none is given), and of turns, of which the best counts (3 if none is given). Prints
# what was measured and its ratios, and fails on none; docs/PERFORMANCE.md has what it printed.
#
# Each measurement has a server of its own. DRBTS names the program (the one that is built here if none is named).
# TURNS is how many turns are made to see whether speed and memory stay (1000000 if it isn't set).
set -eu
cd "$(dirname "$0")/.."
seconds=${1:-2}
rounds=${2:-3}
if ! command -v cc >/dev/null 2>&1; then
  echo "A C compiler is missing: nothing is measured."
  exit 0
fi
program=${DRBTS:-$(sh peer/built.sh drb_server)}
. peer/started.sh
work=$(mktemp -d)
server=''
trap '[ -z "$server" ] || stop; rm -rf "$work"' EXIT
cc -O2 -pthread -o "$work/load" bench/serve/load.c
cc -O2 -pthread -o "$work/echo" bench/serve/echo.c

servers='ours echo'
if ruby -e 'require "rinda/tuplespace"' >/dev/null 2>&1; then
  servers='ours ruby echo'
else
  echo "Ruby or its rinda is missing: it is left out."
fi

# Starts one of the servers.
begin() {
  case $1 in
    ours) start "$work" "$program" serve ;;
    ruby) start "$work" ruby bench/serve/ruby.rb serve ;;
    echo) start "$work" "$work/echo" ;;
  esac
  port=${uri##*:}
}

# What load prints of a server that was started for it; 0 where it failed.
measured() {
  begin "$1"
  shift
  timeout 120 "$work/load" "$port" "$@" || echo 0
  stop
}

# The better of two numbers, the first of which may be missing: `more` the greater one, `less` the lesser one.
better() {
  awk -v which="$1" -v a="$2" -v b="$3" 'BEGIN { print a == "" || (which == "more") == (b > a + 0) ? b : a }'
}

# Measures each server in turn, and prints a line: the name, which of two numbers is better, the unit, the servers, and
# what load is asked.
compare() {
  name=$1 which=$2 unit=$3 of=$4
  shift 4
  ours='' ruby='' echo=''
  for _ in $(seq "$rounds"); do
    for each in $of; do
      got=$(measured "$each" "$@")
      case $each in
        ours) ours=$(better "$which" "$ours" "$got") ;;
        ruby) ruby=$(better "$which" "$ruby" "$got") ;;
        echo) echo=$(better "$which" "$echo" "$got") ;;
      esac
    done
  done
  awk -v name="$name" -v unit="$unit" -v ours="$ours" -v ruby="$ruby" -v echo="$echo" 'BEGIN {
    printf "%s: ours %s %s", name, ours, unit
    if (ruby > 0) printf ", Ruby %s, ours is %.2f of it", ruby, ours / ruby
    if (echo > 0) printf ", the echo %s, ours is %.2f of it", echo, ours / echo
    print ""
  }'
}

for connections in 1 8 64; do
  compare "write at $connections" more "requests/s" "$servers" write "$connections" "$seconds"
done
compare "write with take at 8" more "requests/s" "$servers" pairs 8 "$seconds"

compare "a write after a pause" less "us" "$servers" paced 1000
pause=$ours
echo_pause=$echo
compare "a waiting take is woken" less "us" "${servers% echo}" wake 1000 0
alone=$ours
compare "the same beside 200 that wait" less "us" "${servers% echo}" wake 1000 200
awk -v alone="$alone" -v beside="$ours" -v echo="$echo_pause" -v pause="$pause" 'BEGIN {
  if (alone > 0 && echo > 0 && pause > 0)
    printf "woken: %.2f of the echo after a pause, %.2f of our write; beside 200 that wait %.2f of that\n",
      alone / echo, alone / pause, beside / alone
}'

# Resident memory of the server in kB.
memory() { ps -o rss= -p "$server" | tr -d ' '; }

# A write makes one turn, and a take that finds its tuple two.
turns=${TURNS:-1000000}
tenth=$((turns / 3 / 8 / 10))
begin ours
"$work/load" "$port" count 8 "$tenth" >"$work/first"
before=$(memory)
for _ in 1 2 3 4 5 6 7 8; do "$work/load" "$port" count 8 "$tenth" >/dev/null; done
"$work/load" "$port" count 8 "$tenth" >"$work/last"
awk -v turns="$((tenth * 8 * 3 * 10))" -v first="$(cat "$work/first")" -v last="$(cat "$work/last")" \
  -v before="$before" -v after="$(memory)" 'BEGIN {
  printf "%d turns: the first tenth %d requests/s and then %d kB, the last tenth %d requests/s and then %d kB; ", turns,
    first, before, last, after
  printf "%.2f of the speed, %.2f of the memory\n", last / first, after / before
}'
stop
