#!/usr/bin/env bash
# What wrapping a parcel of 1,400 bytes and reading it back costs, beside the plainest C of the same, in one run: the best of five runs each, and the
# sums of what was read, which must agree. It needs the program that `rt run` or `rt ci` leaves in crates/bench_parcel/out.
set -u
cd "$(dirname "$0")/../.." || exit 1
. bench/best.sh
ours=crates/bench_parcel/out/bench_parcel
rounds=10000000
command -v cc >/dev/null || { echo "skipped: no cc"; exit 0; }
[ -x "$ours" ] || { echo "skipped: $ours is not built"; exit 0; }
work=$(mktemp -d) || exit 1
trap 'rm -rf "$work"' EXIT
cc -O2 -o "$work/plain" bench/parcel/plain.c || exit 1

best 5 "$work/plain" "$rounds" || exit 1
c=$best_ns
mv "$work/out" "$work/sum"
best 5 "$ours" "$rounds" || exit 1
cmp -s "$work/out" "$work/sum" || { echo "failed: the sums differ" >&2; exit 1; }
echo "wrap and read back 1400 bytes: plain C $(over "$c" $rounds 1) ns a round, parcel $(over "$best_ns" $rounds 1) ns, ratio $(over "$best_ns" "$c")"
