#!/usr/bin/env bash
# Captures an elephant and some mice between three machines on one switch: web sends 36,000 bytes to client in six pieces, and between these come pings and a
# question to the database. It needs root, iproute2, tcpdump, ping and nc (openbsd). Usage: make_capture.sh FILE
#
# traffic.pcap beside this script is one such run.
set -eu
[ $# = 1 ] || { echo "usage: make_capture.sh FILE" >&2; exit 2; }
. "$(dirname "$0")/../../scripts/switch.sh"
machines 02:00:00:00:07 10.1.0 web db client
capture "$1"

pieces() { for _ in 1 2 3 4 5 6; do head -c 6000 /dev/zero; sleep 0.4; done; }
pieces | at web nc -N -l 80 >/dev/null &
sleep 0.3
printf 'GET / HTTP/1.0\r\n\r\n' | at client nc -w 2 10.1.0.10 80 >/dev/null &
elephant=$!
for _ in 1 2; do
  sleep 1
  at client ping -q -c 1 10.1.0.10 >/dev/null
  printf 'row' | at db nc -N -l 5432 >/dev/null & sleep 0.2
  printf 'select' | at client nc -w 1 10.1.0.20 5432 >/dev/null || true
done
wait "$elephant" || true
at client ping -q -c 2 10.1.0.10 >/dev/null
captured
