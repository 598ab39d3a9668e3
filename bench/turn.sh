#!/usr/bin/env bash
# What a turn of the turn lock costs: alone beside a pthread mutex's lock and unlock, and with four threads on two cores beside a
# fair ticket lock in C. The programs are timed from outside, the best of three runs each. It needs the program that `rt run` or
# `rt ci` leaves in crates/bench_turn/out.
set -u
cd "$(dirname "$0")/.." || exit 1
. bench/best.sh
lock=crates/bench_turn/out/bench_turn
turns=5000000
rivals=250000
many=500000
command -v cc >/dev/null || { echo "skipped: no cc"; exit 0; }
[ -x "$lock" ] || { echo "skipped: $lock is not built"; exit 0; }
work=$(mktemp -d) || exit 1
trap 'rm -rf "$work"' EXIT
for yardstick in mutex ticket; do
  cc -O2 -pthread -o "$work/$yardstick" "bench/$yardstick.c" || exit 1
done

# The nanoseconds a turn of: PREFIX.. PROGRAM THREADS TURNS, the best of three runs. It fails where a run fails, counts wrongly or takes a minute.
turn_ns() {
  local total=$((${*: -2:1} * ${*: -1}))
  best 3 timeout 60 "$@" || return 1
  [ "$(cat "$work/out")" = "$total turns" ] || { echo "failed: $*" >&2; return 1; }
  over "$best_ns" "$total" 1
}

mutex=$(turn_ns "$work/mutex" 1 "$turns") || exit 1
alone=$(turn_ns "$lock" 1 "$turns") || exit 1
echo "alone: pthread mutex $mutex ns a turn, turn lock $alone ns, ratio $(over "$alone" "$mutex")"

command -v taskset >/dev/null || { echo "skipped: no taskset"; exit 0; }
ticket=$(turn_ns taskset -c 0,1 "$work/ticket" 4 "$rivals") || exit 1
four=$(turn_ns taskset -c 0,1 "$lock" 4 "$rivals") || exit 1
echo "four threads on two cores: ticket lock in C that yields $ticket ns a turn, turn lock $four ns, ratio $(over "$four" "$ticket")"
start=$(date +%s%N)
timeout 10 taskset -c 0,1 "$work/ticket" 4 "$many" spin >/dev/null && ended="" || ended="not done, at least "
spent=$(( $(date +%s%N) - start ))
echo "the same in C that spins alone, one run of at most 10 s: $ended$(( spent / (4 * many) )) ns a turn"
