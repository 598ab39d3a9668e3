#!/usr/bin/env bash
# What the gate costs from nothing, crate by crate, in processor minutes: `bench/gate.sh` runs `rt ci --anew` (which takes most of an hour on four cores),
# with the prover's processes sampled beside it, and prints the table; `bench/gate.sh LOG` prints the table of a log that an earlier run left.
# The logs are bench/out/gate.log and bench/out/ci.log.
set -u
cd "$(dirname "$0")/.." || exit 1
command -v python3 >/dev/null || { echo "skipped: no python3"; exit 0; }
[ $# -eq 0 ] || exec python3 bench/gate.py table "$1"
command -v rt >/dev/null || { echo "skipped: no rt"; exit 0; }
mkdir -p bench/out
python3 bench/gate.py watch bench/out/gate.log &
watcher=$!
rt ci --anew >bench/out/ci.log 2>&1
status=$?
tail -n 1 bench/out/ci.log
wait "$watcher"
python3 bench/gate.py table bench/out/gate.log
exit "$status"
