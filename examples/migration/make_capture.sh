#!/usr/bin/env bash
# Captures a client that talks to a web server all the time, and a question to the database now and then, between three machines on one switch: client
# uploads 1,200 bytes to web ten times, and pings it in between. It needs root, iproute2, tcpdump, ping and nc (openbsd). Usage: make_capture.sh FILE
#
# traffic.pcap beside this script is one such run.
set -eu
[ $# = 1 ] || { echo "usage: make_capture.sh FILE" >&2; exit 2; }
. "$(dirname "$0")/../../scripts/switch.sh"
machines 02:00:00:00:07 10.1.0 client web db
capture "$1"

at web nc -N -l 80 >/dev/null &
sleep 0.3
pieces() { for _ in 1 2 3 4 5 6 7 8 9 10; do head -c 1200 /dev/zero; sleep 0.3; done; }
pieces | at client nc -N -w 2 10.1.0.20 80 >/dev/null &
upload=$!
at client ping -q -i 0.2 -c 14 10.1.0.20 >/dev/null &
echo=$!
for _ in 1 2; do
  sleep 1
  printf 'row' | at db nc -N -l 5432 >/dev/null & sleep 0.2
  printf 'select' | at client nc -w 1 10.1.0.30 5432 >/dev/null || true
done
wait "$upload" || true
wait "$echo" || true
captured
