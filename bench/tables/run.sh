#!/usr/bin/env bash
# What tables and decisions cost beside plain C with a hash map that does the same, in one run: the best processor time of five runs each, less
# that of filling alone, for 1,000 and 65,536 entries, and the memory of a host's tables. The sums of what was answered must agree. It needs the program that `rt run` or
# `rt ci` leaves in crates/bench_tables/out.
set -u
cd "$(dirname "$0")/../.." || exit 1
. bench/best.sh
ours=crates/bench_tables/out/bench_tables
command -v cc >/dev/null || { echo "skipped: no cc"; exit 0; }
[ -x "$ours" ] || { echo "skipped: $ours is not built"; exit 0; }
work=$(mktemp -d) || exit 1
trap 'rm -rf "$work"' EXIT
cc -O2 -o "$work/plain" bench/tables/plain.c || exit 1

# spent PROGRAM WORK ENTRIES ROUNDS: sets `spent` to the nanoseconds of the rounds alone, and leaves what was written in $work/sum.
spent() {
  best 5 "$1" "$2" "$3" "$4" || exit 1
  cp "$work/out" "$work/sum"
  spent=$best_cpu_ms
  best 5 "$1" "$2" "$3" 0 || exit 1
  spent=$((spent > best_cpu_ms ? (spent - best_cpu_ms) * 1000000 : 1))
}

# compare WORK ENTRIES ROUNDS WHAT: a line with the nanoseconds of each and their ratio.
compare() {
  local c
  spent "$work/plain" "$1" "$2" "$3"
  c=$spent
  mv "$work/sum" "$work/wanted"
  spent "$ours" "$1" "$2" "$3"
  cmp -s "$work/sum" "$work/wanted" || { echo "failed: the sums of $1 differ" >&2; exit 1; }
  printf '%6s entries, %-13s plain C %7s ns, tables %7s ns, ratio %s\n' "$2" "$1:" "$(over "$c" "$4" 1)" "$(over "$spent" "$4" 1)" "$(over "$spent" "$c")"
}

for entries in 1000 65536; do
  fills=$((6553600 / entries))
  compare apply "$entries" "$fills" $((fills * entries))
  for name in net_of address owner offload touched rules route locate egress_slow egress_fast ingress_slow ingress_fast gateway; do
    compare "$name" "$entries" 4000000 4000000
  done
  one=$(peak_kb "$ours" hold "$entries" 1)
  many=$(peak_kb "$ours" hold "$entries" 21)
  [ -n "$one" ] && echo "$entries entries, memory of a host's tables: $(((many - one) / 20)) kB"
done
