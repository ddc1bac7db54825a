#!/bin/sh
# Lets a real Ruby speak to sessions of `drbts stdio`: requests of every method as its own drb writes them, with ports,
# blocks and renewers of its own that the program calls back. Each reply, as its own drb reads it, must be the one that
# docs/SESSIONS.md says. Prints a line for each difference, and ends with a count; the status is 1 where there is a
# difference.
set -eu
cd "$(dirname "$0")/.."
if ! ruby -e 'require "rinda/tuplespace"' >/dev/null 2>&1; then
  echo "Ruby or its rinda is missing: nothing is compared."
  exit 0
fi
program=$(sh peer/built.sh drb_server)
exec ruby peer/stdio.rb "$program"
