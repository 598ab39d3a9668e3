#!/usr/bin/env bash
# Captures real traffic between four machines on one switch, which have the addresses of the VMs of scenario.json. It needs root, iproute2, tcpdump, ping and nc
# (openbsd). Usage: make_capture.sh FILE
#
# traffic.pcap beside this script is one such run.
set -eu
[ $# = 1 ] || { echo "usage: make_capture.sh FILE" >&2; exit 2; }
. "$(dirname "$0")/../../scripts/switch.sh"
machines 02:00:00:00:07 10.1.0 web db client guest
capture "$1"

at client ping -q -c 1 10.1.0.10 >/dev/null                                    # client to web
printf 'HTTP/1.0 200 OK\r\n\r\nhello\n' | at web nc -N -l 80 >/dev/null &
sleep 0.3
printf 'GET / HTTP/1.0\r\n\r\n' | at client nc -w 1 10.1.0.10 80 >/dev/null || true
at client nc -z -w 1 10.1.0.20 5432 2>/dev/null || true                        # client to the database: refused there
at web nc -z -w 1 10.1.0.20 5432 2>/dev/null || true                           # web to the database
at client nc -z -w 1 10.1.0.20 22 2>/dev/null || true                          # client to ssh
printf 'query' | at client nc -u -w 1 10.1.0.10 53 2>/dev/null || true         # a datagram to web
at guest ping -q -c 1 10.1.0.10 >/dev/null || true                             # another tenant to web
captured
