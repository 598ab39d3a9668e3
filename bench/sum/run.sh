#!/usr/bin/env bash
# What the one's complement sum of 1,400 bytes costs, beside plain C by words of 64 bits, in one run: the best processor time of nine runs each, by turns, and
# what was written, which must agree. It needs the program that `rt run` or `rt ci` leaves in crates/bench_sum/out.
set -u
cd "$(dirname "$0")/../.." || exit 1
. bench/best.sh
ours=crates/bench_sum/out/bench_sum
rounds=10000000
command -v cc >/dev/null || { echo "skipped: no cc"; exit 0; }
[ -x "$ours" ] || { echo "skipped: $ours is not built"; exit 0; }
work=$(mktemp -d) || exit 1
trap 'rm -rf "$work"' EXIT
cc -O3 -o "$work/plain" bench/sum/plain.c || exit 1

# least OLD NEW: the less of two numbers, of which the first may be missing.
least() { if [ -z "$1" ] || [ "$2" -lt "$1" ]; then echo "$2"; else echo "$1"; fi; }

c='' sum=''
for _turn in 1 2 3; do
  best 3 "$work/plain" "$rounds" || exit 1
  c=$(least "$c" "$best_cpu_ms")
  mv "$work/out" "$work/wanted"
  best 3 "$ours" "$rounds" || exit 1
  sum=$(least "$sum" "$best_cpu_ms")
  cmp -s "$work/out" "$work/wanted" || { echo "failed: the sums differ" >&2; exit 1; }
done
echo "ones_sum of 1400 bytes: plain C $(over "$((c * 1000000))" $rounds 1) ns, ours $(over "$((sum * 1000000))" $rounds 1) ns, speed $(over "$c" "$sum") of C's (wanted: 0.80)"
