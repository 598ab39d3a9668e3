#!/usr/bin/env bash
# What an event of the book costs: runs of 1,000, 10,000 and 100,000 frames, each of which is delivered over two hosts and a gateway in seven events,
# and 100,000 frames twice, which is over a million events; with the planning. Of five runs each the least processor time counts, in whole milliseconds,
# so that other work on the machine matters little. Where the time grows linearly, the nanoseconds an event stay about the same; in the shortest run the
# start of the program counts too. It needs the program that `rt run` or `rt ci` leaves in crates/bench_book/out.
set -u
cd "$(dirname "$0")/../.." || exit 1
. bench/best.sh
program=crates/bench_book/out/bench_book
[ -x "$program" ] || { echo "skipped: $program is not built"; exit 0; }
work=$(mktemp -d) || exit 1
trap 'rm -rf "$work"' EXIT

for run in '1000 1' '10000 1' '100000 1' '100000 2'; do
  read -r frames rounds <<<"$run"
  best 5 "$program" "$frames" "$rounds" || exit 1
  # The four entries on two hosts and one gateway are 28 events; the wait, seven events a frame and the end come to that.
  events=$((rounds * (28 + 1 + 7 * frames + 1)))
  [ "$(cat "$work/out")" = "$events" ] || { echo "failed: $(cat "$work/out") events of $run" >&2; exit 1; }
  peak=$(peak_kb "$program" "$frames" "$rounds") || exit 1
  echo "$frames frames, $rounds run(s): $events events, $best_cpu_ms ms, $(over "$((best_cpu_ms * 1000000))" "$events" 0) ns an event, peak ${peak:-unknown} KB"
done
