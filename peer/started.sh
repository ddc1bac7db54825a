# Read by scripts that start a server: `start FOLDER PROGRAM WORDS..` starts one on a port that the system gives, keeps
# what it prints in the folder, and sets `server` to its process and `uri` to what it printed first.
# `stop` ends it.
# shellcheck shell=sh disable=SC2034
start() {
  folder=$1
  shift
  : >"$folder/out"
  "$@" --uri druby://127.0.0.1:0 >"$folder/out" 2>"$folder/err" </dev/null &
  server=$!
  tries=0
  until read -r uri <"$folder/out"; do
    tries=$((tries + 1))
    if [ "$tries" -gt 200 ] || ! kill -0 "$server" 2>/dev/null; then
      echo "no server: $*" >&2
      cat "$folder/out" "$folder/err" >&2
      exit 1
    fi
    sleep 0.1
  done
}

stop() {
  kill "$server" 2>/dev/null || true
  wait "$server" 2>/dev/null || true
}
