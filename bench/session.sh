#!/bin/sh
# Measures a session beside Ruby: the same requests, each a write, a take or a read, read and answered by `drbts stdio`
# and by Ruby's own drb and tuple space in one process. Takes the number of requests (100,000 if none is given) and of
# turns, of which the quickest counts (3 if none is given). docs/PERFORMANCE.md has what it printed.
#
# The requests are those of a fixed seed: a letter and a number are written, or a tuple of that letter is read or taken
# where one is there, so that nobody waits.
set -eu
cd "$(dirname "$0")/.."
count=${1:-100000}
turns=${2:-3}
if ! ruby -e 'require "rinda/tuplespace"' >/dev/null 2>&1; then
  echo "Ruby or its rinda is missing: nothing is measured."
  exit 0
fi
program=$(sh peer/built.sh drb_server)
work=$(mktemp -d)
trap 'rm -rf "$work"' EXIT

ruby -e '
  count, file = ARGV[0].to_i, ARGV[1]
  dump = ->(v) { s = Marshal.dump(v); [s.bytesize].pack("N") + s }
  name = ->(s) { dump.(s.dup.force_encoding("US-ASCII")) }
  front, one, block = dump.(nil), dump.(1), dump.(nil)
  x, left = 7, Hash.new(0)
  File.open(file, "wb") do |out|
    (1..count).each do |i|
      x = (1664525 * x + 1013904223) % 2**32
      q = x >> 24
      letter = %i[a b c d][q / 4 % 4]
      kind = q % 4
      kind = 0 if kind > 1 && left[letter] == 0
      case kind
      when 2 then out << front << name.("take") << one << dump.([letter, nil]) << block; left[letter] -= 1
      when 3 then out << front << name.("read") << one << dump.([letter, nil]) << block
      else out << front << name.("write") << one << dump.([letter, i]) << block; left[letter] += 1
      end
    end
  end
' "$count" "$work/requests"

# Nanoseconds that Ruby takes: its own reader of requests, its own tuple space, and its own writer of replies.
by_ruby() {
  ruby -e '
    require "drb"
    require "stringio"
    require "rinda/tuplespace"
    DRb.start_service("druby://127.0.0.1:0", Rinda::TupleSpace.new)
    message = DRb::DRbMessage.new(DRb::DRbServer.make_config)
    space = Rinda::TupleSpace.new
    bytes = File.binread(ARGV[0])
    started = Process.clock_gettime(Process::CLOCK_MONOTONIC, :nanosecond)
    input, output = StringIO.new(bytes), StringIO.new
    until input.eof?
      object, method, args, = message.recv_request(input)
      result = space.__send__(method, *args)
      message.send_reply(output, true, result)
    end
    puts Process.clock_gettime(Process::CLOCK_MONOTONIC, :nanosecond) - started
  ' "$1"
}

# Nanoseconds that ours takes, the start of its process in them.
by_ours() {
  ruby -e '
    program, file = ARGV
    started = Process.clock_gettime(Process::CLOCK_MONOTONIC, :nanosecond)
    ok = system(program, "stdio", in: file, out: "/dev/null")
    abort "drbts stdio did not end well" unless ok
    puts Process.clock_gettime(Process::CLOCK_MONOTONIC, :nanosecond) - started
  ' "$program" "$1"
}

# The lesser of two numbers, where the first may be missing.
lesser() {
  if [ -n "$1" ] && [ "$1" -lt "$2" ]; then echo "$1"; else echo "$2"; fi
}

ruby='' ours=''
for _ in $(seq "$turns"); do
  ruby=$(lesser "$ruby" "$(by_ruby "$work/requests")")
  ours=$(lesser "$ours" "$(by_ours "$work/requests")")
done
awk -v count="$count" -v ruby="$ruby" -v ours="$ours" 'BEGIN {
  printf "%d requests: ours %.1f us each, Ruby %.1f us each; ours is %.1f times as fast\n",
    count, ours / count / 1000, ruby / count / 1000, ruby / ours
}'
