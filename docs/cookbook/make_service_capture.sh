#!/usr/bin/env bash
# Captures a small service on a switch where everything is allowed: its machines have the addresses of the VMs of service.json. It needs root, iproute2, tcpdump,
# ping and nc (openbsd). Usage: make_service_capture.sh FILE
#
# service.pcap beside this script is one such run.
set -eu
[ $# = 1 ] || { echo "usage: make_service_capture.sh FILE" >&2; exit 2; }
. "$(dirname "$0")/../../scripts/switch.sh"

# Answers one connection to a port of a machine, whoever asks.
serve() { printf '%s' "$3" | at "$1" nc -N -l "$2" >/dev/null & sleep 0.3; }
ask() { printf '%s' "$4" | at "$1" nc -w 1 "$2" "$3" >/dev/null || true; }

machines 02:00:00:00:0a 10.2.0 web db client
capture "$1"

serve web 443 'page'
ask client 10.2.0.10 443 'get'              # client to web: the service
serve db 5432 'row'
ask web 10.2.0.20 5432 'select'             # web to its database
serve db 5432 'row'
ask client 10.2.0.20 5432 'select'          # client to the database: the switch lets it
serve web 22 'SSH-2.0'
ask client 10.2.0.10 22 'SSH-2.0'           # client to ssh of web: the switch lets it
at web ping -q -c 1 10.2.0.20 >/dev/null    # web to the database
captured
