#!/bin/sh
# Runs each example against a `drbts serve` of its own, and compares what it prints with what stands in its .expected.
# The status is 1 where one differs. DRBTS names the program (the one that is built here if none is named).
set -eu
cd "$(dirname "$0")/.."
if ! ruby -e 'require "rinda/rinda"' >/dev/null 2>&1; then
  echo "Ruby or its rinda is missing: no example is run."
  exit 0
fi
program=${DRBTS:-$(sh peer/built.sh drb_server)}
. peer/started.sh
work=$(mktemp -d)
server=''
trap '[ -z "$server" ] || stop; rm -rf "$work"' EXIT

wrong=0
for example in jobs names events leases; do
  start "$work" "$program" serve
  if timeout 60 ruby "examples/$example.rb" "$uri" >"$work/shown" 2>&1 \
    && diff "examples/$example.expected" "$work/shown"; then
    echo "ok $example"
  else
    echo "not ok $example"
    tail -n 5 "$work/shown" "$work/err"
    wrong=1
  fi
  stop
done
exit "$wrong"
