#!/bin/sh
# Records what psql and a server say to each other, and lists both sides with pgtrace.
#
#   tools/record.sh [--live] HOST PORT PSQL-ARGUMENTS..
#
# With --live the server's side is listed while psql runs, each line as soon as its message is whole.
# Needs psql, a server that takes connections over TCP, socat (or python3, for relay.py beside this script), and
# crates/pgtrace/out/pgtrace (`rt run < /dev/null` in crates/pgtrace), or the program that PGTRACE names.
# psql connects as it does by itself: where the server takes TLS, set PGSSLMODE=disable, since no message of an encrypted connection can be listed.
# RELAY is the port that psql calls, 54329 if it isn't set.
set -eu
live=
if [ "$1" = --live ]; then
  live=yes
  shift
fi
host=$1
server=$2
shift 2
relay=${RELAY:-54329}
here=$(dirname "$0")
pgtrace=${PGTRACE:-$here/../crates/pgtrace/out/pgtrace}
dir=$(mktemp -d)
trap 'rm -r "$dir"' EXIT

if [ -n "$live" ]; then
  mkfifo "$dir/server"
  "$pgtrace" server < "$dir/server" &
fi
if command -v socat > /dev/null; then
  socat -r "$dir/client" -R "$dir/server" "TCP-LISTEN:$relay,bind=127.0.0.1,reuseaddr" "TCP:$host:$server" &
else
  python3 "$here/relay.py" "$relay" "$host" "$server" "$dir/client" "$dir/server" &
fi
sleep 1
psql -h 127.0.0.1 -p "$relay" "$@" || echo "psql ended with status $?" >&2
wait

echo '-- the client'
"$pgtrace" client --password-kind initial --password-kind response < "$dir/client"
if [ -z "$live" ]; then
  echo '-- the server'
  "$pgtrace" server < "$dir/server"
fi
