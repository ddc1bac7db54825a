#!/bin/sh
# Lets two peers come over TCP, one from 127.0.0.1 and one from 127.0.0.2, to `drbts serve` with an access list that
# admits the second alone: the first must be sent away with nothing written, the second answered. Then the same with the
# list turned round. Prints a line for each, and ends with a count; the status is 1 where one came out otherwise.
# DRBTS names the program (the one that is built here if none is named).
set -eu
cd "$(dirname "$0")/.."
if ! command -v python3 >/dev/null 2>&1; then
  echo "Python is missing: no peer comes from two addresses."
  exit 0
fi
program=${DRBTS:-$(sh peer/built.sh drb_server)}
. peer/started.sh
work=$(mktemp -d)
server=''
trap '[ -z "$server" ] || stop; rm -rf "$work"' EXIT

wrong=0
# Which of the two addresses is let in, and the lines of the list.
admits() {
  only=$1
  shift
  printf '%s\n' "$@" >"$work/list"
  start "$work" "$program" serve --acl "$work/list"
  for address in 127.0.0.1 127.0.0.2; do
    wanted=refused
    [ "$address" != "$only" ] || wanted=served
    shown=$(python3 peer/serve/from_address.py "$address" "${uri##*:}" || true)
    if [ "$shown" = "$wanted" ]; then
      echo "ok: $address is $shown under $*"
    else
      echo "not ok: $address is $shown under $*, wanted $wanted"
      wrong=$((wrong + 1))
    fi
  done
  stop
  server=''
}

admits 127.0.0.2 "order deny,allow" "deny all" "allow 127.0.0.2"
admits 127.0.0.1 "order deny,allow" "deny 127.0.0.2" "allow 127.0.0.1"
admits 127.0.0.2 "order allow,deny" "deny 127.0.0.1" "allow 127.0.0.0/8"
echo "6 peers, $wrong otherwise"
[ "$wrong" -eq 0 ]
