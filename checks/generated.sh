#!/usr/bin/env bash
# 300 generated scenarios (scripts/generate.py, seeded) give the report, the trace and both captures that the model composes for them, and the plain program
# judges each trace legal, complete, in the plain order, just and fresh. Sealed packets are among them: some are sent, some find a full queue before or behind the
# coprocessor. The files go to a folder beside the program that is no part of the repository.
set -u
cd "$(dirname "$0")/.." || exit 1
program=crates/andromeda/out/andromeda
judge=crates/rows/out/rows
[ -x "$program" ] && [ -x "$judge" ] || { echo "skipped: $program or $judge is not built"; exit 0; }
command -v python3 >/dev/null || { echo "skipped: python3 is not installed"; exit 0; }
work=crates/andromeda/out/generated
traces=()
python3 scripts/generate.py "$work" 300 1 || { echo "failed: no scenarios were written"; exit 1; }
for line in '^sealed .* queued$' '^sealed .* full$' '^egress .* sealed .* full$'; do
  grep -q "$line" "$work"/[0-9]*.trace || { echo "failed: no packet of the scenarios has a line $line"; exit 1; }
done
for number in $(seq 0 299); do
  "$program" replay "$work/$number.json" "$work/$number.pcap" "$work/got" >"$work/got.report" || { echo "failed: scenario $number"; exit 1; }
  diff "$work/$number.report" "$work/got.report" || { echo "failed: the report of scenario $number differs"; exit 1; }
  diff "$work/$number.trace" "$work/got.trace" || { echo "failed: the trace of scenario $number differs"; exit 1; }
  for kind in delivered underlay; do
    cmp "$work/$number.$kind.pcap" "$work/got.$kind.pcap" || { echo "failed: the $kind capture of scenario $number differs"; exit 1; }
  done
  traces+=("$work/$number.json" "$work/$number.pcap" "$work/$number.trace")
done
"$judge" judge "${traces[@]}" >"$work/judged" || { echo "failed: the plain program refuses a trace"; grep "is judged" "$work/judged"; exit 1; }
[ "$(grep -c "is legal, complete, in the plain order, just and fresh$" "$work/judged")" = 300 ] || { echo "failed: not every trace is judged"; exit 1; }
echo "passed: 300 generated scenarios give the reports, traces and captures that the model composes, and the plain program finds them right"
