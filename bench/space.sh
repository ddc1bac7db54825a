#!/bin/sh
# Measures the tuple space beside Ruby's Rinda::TupleSpace: writes and takes alone, among many tuples and beside many that
# wait, leases, read_all, and the memory of a tuple. Each is done by a process of its own, ours and Ruby's in turn. Takes
# the number of turns, of which the quickest counts (3 if none is given). docs/PERFORMANCE.md has what it printed.
set -eu
cd "$(dirname "$0")/.."
turns=${1:-3}
if ! ruby -e 'require "rinda/tuplespace"' >/dev/null 2>&1; then
  echo "Ruby or its rinda is missing: nothing is measured."
  exit 0
fi
program=$(sh peer/built.sh space_bench)

# What Ruby takes for the same: nanoseconds of one step of the quickest round, or bytes of one tuple. The words are
# those of the program.
by_ruby() {
  ruby -e '
    require "rinda/tuplespace"

    def now = Process.clock_gettime(Process::CLOCK_MONOTONIC, :nanosecond)

    def quickest(rounds, steps)
      (1..rounds).map do
        start = now
        yield
        (now - start) / steps
      end.min
    end

    def resident = File.read("/proc/self/statm").split[1].to_i * 4096

    def pairs(space, count, rounds)
      quickest(rounds, count) do
        count.times do |i|
          space.write([:job, i, "text"])
          space.take([:job, i, nil])
        end
      end
    end

    def fill(space, name, count) = count.times { |i| space.write([name, i, "text"]) }

    def beside(space, name, waiting, count, rounds)
      waiting.times { |i| Thread.new { space.take([name, i + count, nil]) } }
      sleep 0.01 until Thread.list.count { |t| t.status == "sleep" } >= waiting
      pairs(space, count, rounds)
    end

    def writes(space, count)
      start = now
      count.times { |i| space.write([:job, i, "text"], yield(i)) }
      (now - start) / count
    end

    space = Rinda::TupleSpace.new
    word, *numbers = ARGV
    a, b, c = numbers.map(&:to_i)
    puts(case word
      when "pairs" then pairs(space, a, b)
      when "among"
        fill(space, :job, a)
        quickest(c, b) do
          b.times do |i|
            n = i * 48_271 % a
            space.take([:job, n, nil])
            space.write([:job, n, "text"])
          end
        end
      when "beside" then beside(space, :other, a, b, c)
      when "beside_same" then beside(space, :job, a, b, c)
      when "writes" then writes(space, a) { nil }
      when "rising" then writes(space, a) { |i| i + 1 }
      when "mixed" then writes(space, a) { |i| i * 48_271 % a + 1 }
      when "read_all"
        fill(space, :job, a - b)
        fill(space, :note, b)
        quickest(c, 1) { space.read_all([:note, nil, nil]).size == b or raise "other tuples were read" }
      when "memory"
        GC.start
        before = resident
        fill(space, :job, a)
        GC.start
        (resident - before) / a
      end)
    # Those that wait are let go with the process.
    $stdout.flush
    exit!(true)
  ' "$@"
}

# The lesser of two numbers, where the first may be missing.
lesser() {
  if [ -n "$1" ] && [ "$1" -lt "$2" ]; then echo "$1"; else echo "$2"; fi
}

# Measures the words by ours and by Ruby, which may have fewer rounds of its own behind a `/`, and prints both. What ours
# took is kept in `ours`.
compare() {
  name=$1
  unit=$2
  shift 2
  words=''
  while [ $# -gt 0 ] && [ "$1" != / ]; do
    words="$words $1"
    shift
  done
  if [ $# -gt 0 ]; then
    shift
    rubys=$*
  else
    rubys=$words
  fi
  ours='' ruby=''
  for _ in $(seq "$turns"); do
    # The words are split at their spaces.
    # shellcheck disable=SC2086
    ours=$(lesser "$ours" "$("$program" $words)")
    # shellcheck disable=SC2086
    ruby=$(lesser "$ruby" "$(by_ruby $rubys)")
  done
  awk -v name="$name" -v unit="$unit" -v ours="$ours" -v ruby="$ruby" 'BEGIN {
    printf "%s: ours %d %s, Ruby %d %s; Ruby takes %.1f times ours\n", name, ours, unit, ruby, unit, ruby / ours
  }'
}

# Prints the ratio of ours to ours of another measure.
against() {
  awk -v name="$1" -v ours="$ours" -v other="$2" 'BEGIN { printf "  %s: %.2f times\n", name, ours / other }'
}

compare "a write and its take" ns pairs 20000 5
alone=$ours
compare "the same beside 1,000 waiting takes of other names" ns beside 1000 20000 5 / beside 1000 2000 3
against "against no other" "$alone"
compare "the same beside 1,000 waiting takes of the same name" ns beside_same 1000 20000 5 / beside_same 1000 1000 3
against "against no other" "$alone"
compare "a take and its write among 1,000" ns among 1000 20000 5 / among 1000 1000 3
few=$ours
compare "a take and its write among 100,000" ns among 100000 20000 5 / among 100000 20 3
against "against 1,000" "$few"
compare "a write, 100,000 times" ns writes 100000
alone=$ours
compare "a write with a lease, the deadlines rising" ns rising 100000
against "against no lease" "$alone"
compare "a write with a lease, the deadlines in no order" ns mixed 100000
against "against no lease" "$alone"
compare "read_all of 100 among 100,000" ns read_all 100000 100 20
compare "memory of a tuple, of 100,000" bytes memory 100000
