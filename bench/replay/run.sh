#!/usr/bin/env bash
# What a replay costs, in one run, with all that it writes: 1,000, 10,000 and 100,000 frames of 100 bytes over 8 hosts, 40 VMs and 60 rules in 4 networks, in
# frames and events a second and peak memory; how the cost of a frame grows with frames, hosts, rules and ticks; what migrations and seals cost, by runs with
# and without them in turn; 10,000 frames of 1,400 bytes; and the reading of the largest capture (a scenario without VMs, so that each frame is read and
# skipped) beside the plainest C. It needs the program that `rt run` or `rt ci` leaves in crates/andromeda/out.
set -u
cd "$(dirname "$0")/../.." || exit 1
. bench/best.sh
program=crates/andromeda/out/andromeda
command -v python3 >/dev/null || { echo "skipped: no python3"; exit 0; }
command -v cc >/dev/null || { echo "skipped: no cc"; exit 0; }
[ -x "$program" ] || { echo "skipped: $program is not built"; exit 0; }
work=$(mktemp -d) || exit 1
trap 'rm -rf "$work"' EXIT
python3 bench/replay/make_input.py "$work" 1000 10000 100000 || exit 1
cc -O2 -o "$work/read" bench/replay/read.c || exit 1

# The milliseconds of the best of five runs.
ms() { best 5 "$@" && over "$best_ns" 1000000; }

for frames in 1000 10000 100000; do
  spent=$(ms "$program" replay "$work/scenario.json" "$work/$frames.pcap" "$work/x") || exit 1
  events=$(($(wc -l <"$work/x.trace") - 1))
  awk -v t="$spent" -v n="$frames" -v e="$events" 'BEGIN {
    printf "%d frames, %d events: %s ms, %.3f us a frame, %.0f frames and %.0f events a second", n, e, t, 1000 * t / n, 1000 * n / t, 1000 * e / t }'
  peak=$(peak_kb "$program" replay "$work/scenario.json" "$work/$frames.pcap" "$work/x") || exit 1
  echo ", peak memory ${peak:-unknown} KB"
done

# grows WHAT SCENARIO FRAMES SCENARIO FRAMES: how many times as much a frame costs in the second replay as in the first, by processor time.
grows() {
  local first
  best 5 "$program" replay "$work/$2.json" "$work/$3.pcap" "$work/x" || exit 1
  first=$(over "$best_cpu_ms" "$3" 9)
  best 5 "$program" replay "$work/$4.json" "$work/$5.pcap" "$work/x" || exit 1
  echo "$1: a frame costs $(over "$(over "$best_cpu_ms" "$5" 9)" "$first") times as much"
}
grows "100,000 frames for 10,000" scenario 10000 scenario 100000
grows "64 hosts for 8" scenario 100000 64-hosts 100000
grows "4,000 rules in other networks for 4" 4-elsewhere 100000 4000-elsewhere 100000
grows "256 rules in the packet's network for 4" 4-rules 100000 256-rules 100000
grows "a tick every 1,000 frames for none, no flow over the threshold" scenario 100000 ticks 100000
grows "a tick every 1,000 frames for none, all flows offloaded" scenario 100000 offloads 100000

# turns PAIRS WHAT SCENARIO SCENARIO CAPTURE: how many times as much the second replay of a capture costs as the first, by runs in turn.
turns() {
  local first second cost
  first=("$program" replay "$work/$3.json" "$work/$5.pcap" "$work/x")
  second=("$program" replay "$work/$4.json" "$work/$5.pcap" "$work/y")
  cost=$(paired "$1") || exit 1
  echo "$2: a frame costs $cost"
}
turns 15 "1,000 migrations over 64 hosts for none" 64-hosts moves 100000
# 300,000 frames sealed and 300,000 not, at most 1.5.
turns 15 "20,000 frames of 1,400 bytes, all sealed for none" unsealed sealed longer
echo "10000 frames of 1400 bytes: $(ms "$program" replay "$work/scenario.json" "$work/long.pcap" "$work/x") ms"
ours=$(ms "$program" replay "$work/no-vms.json" "$work/100000.pcap" "$work/x") || exit 1
c=$(ms "$work/read" "$work/100000.pcap") || exit 1
echo "reading 100000 frames of 100 bytes: $ours ms, plain C $c ms, ratio $(over "$ours" "$c")"
