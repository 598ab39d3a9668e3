#!/usr/bin/env bash
# What the reading of a scenario of 65,536 items costs, beside the reading of the same text as a JSON value alone (serde_json as the toolchain has it), in
# one run: the best of five runs of ten readings each, by the clock and by processor time. It needs the program that `rt run` or `rt ci` leaves in
# crates/bench_script/out.
set -u
cd "$(dirname "$0")/../.." || exit 1
. bench/best.sh
ours=crates/bench_script/out/bench_script
rounds=10
command -v python3 >/dev/null || { echo "skipped: no python3"; exit 0; }
[ -x "$ours" ] || { echo "skipped: $ours is not built"; exit 0; }
work=$(mktemp -d) || exit 1
trap 'rm -rf "$work"' EXIT
python3 bench/scenario/make_script.py "$work/scenario.json" || exit 1

best 5 "$ours" value "$work/scenario.json" "$rounds" || exit 1
[ "$(cat "$work/out")" = "$rounds" ] || { echo "failed: the text is no JSON" >&2; exit 1; }
value=$best_ns value_cpu=$best_cpu_ms
best 5 "$ours" scenario "$work/scenario.json" "$rounds" || exit 1
# 65,536 items and 1,024 names a reading
[ "$(cat "$work/out")" = $((rounds * 66560)) ] || { echo "failed: the text is no scenario of so many items" >&2; exit 1; }
echo "$(wc -c <"$work/scenario.json") bytes, 65536 items: as JSON $(over "$value" "$((rounds * 1000000))") ms, as a scenario $(over "$best_ns" "$((rounds * 1000000))") ms, ratio $(over "$best_ns" "$value") by the clock, $(over "$best_cpu_ms" "$value_cpu") by processor time"
