#!/usr/bin/env bash
# The reports of the examples, and the traces of all but the first, are those that were written down by hand from tshark's list and the scenario's
# rules (README.md of each), but those of sealed, which the model composes as it does the captures of all but the first two. What the program writes goes to a folder beside it that is no part of the
# repository.
set -u
cd "$(dirname "$0")/.." || exit 1
program=crates/andromeda/out/andromeda
[ -x "$program" ] || { echo "skipped: $program is not built"; exit 0; }
work=crates/andromeda/out/examples
mkdir -p "$work" || exit 1

same() { diff "$1" "$2" || { echo "failed: $3"; exit 1; }; }

example=examples/two-vms
"$program" replay "$example/scenario.json" "$example/hundred-frames.pcap" "$work/two" >"$work/two.report" || { echo "failed: $example"; exit 1; }
same "$example/report.txt" "$work/two.report" "the report of $example differs"

example=examples/three-hosts
"$program" replay "$example/scenario.json" "$example/traffic.pcap" "$work/three" >"$work/three.report" || { echo "failed: $example"; exit 1; }
same "$example/report.txt" "$work/three.report" "the report of $example differs"
same "$example/trace.txt" "$work/three.trace" "the trace of $example differs"

for run in "lag scenario three-hosts/traffic" "offload scenario offload/traffic" "migration scenario migration/traffic" "migration lag migration/traffic" \
  "sealed scenario sealed/traffic"; do
  read -r name scenario capture <<<"$run"
  example=examples/$name traffic=examples/$capture.pcap out=$work/$name-$scenario
  written=$example/$([ "$scenario" = scenario ] || echo "$scenario-")
  "$program" replay "$example/$scenario.json" "$traffic" "$out" >"$out.report" || { echo "failed: $example"; exit 1; }
  same "${written}report.txt" "$out.report" "the report of $example differs"
  same "${written}trace.txt" "$out.trace" "the trace of $example differs"
  command -v python3 >/dev/null || continue
  python3 scripts/model.py "$example/$scenario.json" "$traffic" "$work/model" >/dev/null || { echo "failed: no captures are composed"; exit 1; }
  for kind in delivered underlay; do
    cmp "$work/model.$kind.pcap" "$out.$kind.pcap" || { echo "failed: the $kind capture of $example differs"; exit 1; }
  done
done
echo "passed: the examples' reports, traces and captures are the ones written by hand or composed"
