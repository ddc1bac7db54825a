#!/bin/sh
# Measures the reader and the writer of dumps beside Ruby's Marshal and beside a plain copy of the same bytes: a list of
# 10,000 small tuples, and one text of 20 MB, each read and written by both in turn. Takes the number of rounds of each
# turn, of which the quickest counts (20 if none is given); there are three turns. Prints MB/s and the ratio to Ruby's
# time. docs/PERFORMANCE.md has what it printed.
#
# Ruby keeps the memory of a round for the next one. The C library hands large pieces back to the kernel, which then
# clears each page anew, so it is told to keep them too. With HEAP=returned it isn't told.
set -eu
cd "$(dirname "$0")/.."
rounds=${1:-20}
if ! command -v ruby >/dev/null 2>&1; then
  echo "Ruby is missing: nothing is measured."
  exit 0
fi
program=$(sh peer/built.sh marshal_bench)
work=$(mktemp -d)
trap 'rm -rf "$work"' EXIT

ruby -e '
  tuples = (0...10_000).map { |i| [:job, i, "text #{i}", nil, true] }
  text = "The quick brown fox jumps over the lazy dog. " * (20_000_000 / 45 + 1)
  File.binwrite(ARGV[0] + "/tuples", Marshal.dump(tuples))
  File.binwrite(ARGV[0] + "/text", Marshal.dump(text[0, 20_000_000]))
' "$work"

# Ruby's quickest round in nanoseconds.
by_ruby() {
  ruby -e '
    what, file, rounds = ARGV
    bytes = File.binread(file)
    value = Marshal.load(bytes)
    best = (1..rounds.to_i).map do
      GC.start
      start = Process.clock_gettime(Process::CLOCK_MONOTONIC, :nanosecond)
      what == "read" ? Marshal.load(bytes) : Marshal.dump(value)
      Process.clock_gettime(Process::CLOCK_MONOTONIC, :nanosecond) - start
    end.min
    puts best
  ' "$1" "$2" "$rounds"
}

# Our quickest round, or that of a copy, in nanoseconds.
by_ours() {
  if [ "${HEAP:-kept}" = kept ]; then
    MALLOC_TRIM_THRESHOLD_=1000000000 MALLOC_MMAP_THRESHOLD_=1000000000 "$program" "$1" "$rounds" <"$2"
  else
    "$program" "$1" "$rounds" <"$2"
  fi
}

# The lesser of two numbers, where the first may be missing.
lesser() {
  if [ -n "$1" ] && [ "$1" -lt "$2" ]; then echo "$1"; else echo "$2"; fi
}

for input in tuples text; do
  size=$(wc -c <"$work/$input" | tr -d ' ')
  for what in read write; do
    ruby='' ours='' copy=''
    for _ in 1 2 3; do
      ruby=$(lesser "$ruby" "$(by_ruby "$what" "$work/$input")")
      ours=$(lesser "$ours" "$(by_ours "$what" "$work/$input")")
      copy=$(lesser "$copy" "$(by_ours copy "$work/$input")")
    done
    awk -v name="$what $input" -v size="$size" -v ruby="$ruby" -v ours="$ours" -v copy="$copy" 'BEGIN {
      printf "%s, %d bytes: ours %.1f MB/s, Ruby %.1f MB/s, a copy %.0f MB/s; ours takes %.2f of the time of Ruby, %.1f of a copy\n",
        name, size, size * 1000 / ours, size * 1000 / ruby, size * 1000 / copy, ours / ruby, ours / copy
    }'
  done
done
