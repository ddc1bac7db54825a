#!/bin/sh
# Lets real Ruby clients work with `drbts serve` over real sockets. Prints a line for each check, `ok NAME` or
# `not ok NAME: why`, and ends with counts; the status is 1 where one failed. It takes some minutes.
#
# DRBTS names the program (the one that is built here if none is named). With the word --ruby the checks that hold of
# both are made of Ruby's own server, in place of ours. A word behind it, or alone, is a pattern: only the checks whose
# names it matches are made.
set -eu
cd "$(dirname "$0")/.."
if ! ruby -e 'require "rinda/tuplespace"' >/dev/null 2>&1; then
  echo "Ruby or its rinda is missing: nothing is checked."
  exit 0
fi
if [ "${1:-}" = --ruby ]; then
  program=bench/serve/ruby.rb
  export KEEP=1
else
  program=${DRBTS:-$(sh peer/built.sh drb_server)}
fi
exec ruby peer/serve.rb "$program" "$@"
