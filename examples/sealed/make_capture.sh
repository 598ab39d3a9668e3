#!/usr/bin/env bash
# Captures a web server that answers a client and asks the database for it, between three machines on one switch: client asks web for four pages, and web stores
# 3,000 bytes in db for each. It needs root, iproute2, tcpdump and nc (openbsd). Usage: make_capture.sh FILE
#
# traffic.pcap beside this script is one such run.
set -eu
[ $# = 1 ] || { echo "usage: make_capture.sh FILE" >&2; exit 2; }
. "$(dirname "$0")/../../scripts/switch.sh"
machines 02:00:00:00:07 10.1.0 client web db
capture "$1"

for _ in 1 2 3 4; do
  printf 'page' | at web nc -N -l 80 >/dev/null & sleep 0.2
  printf 'get' | at client nc -w 1 10.1.0.20 80 >/dev/null || true
  printf 'stored' | at db nc -N -l 5432 >/dev/null & sleep 0.2
  head -c 3000 /dev/zero | at web nc -N -w 2 10.1.0.30 5432 >/dev/null || true
done
captured
