#!/usr/bin/env bash
# What the benches share, to be sourced: the best of several runs of a command, the ratios of two commands' runs in turn, a command's peak memory, and two numbers'
# ratio. They write into the folder $work.
export LC_ALL=C

# best RUNS COMMAND..: runs the command so often, and sets best_ns to its least time by the clock and best_cpu_ms to its least processor time (user
# and system). What it wrote last is in $work/out; where it fails, so does this.
best() {
  local runs=$1 start spent user system line TIMEFORMAT='%3U %3S'
  shift
  best_ns='' best_cpu_ms=''
  while ((runs-- > 0)); do
    start=$(date +%s%N)
    { time "$@" >"$work/out" 2>"$work/said"; } 2>"$work/time" || { echo "failed: $*: $(head -n 1 "$work/said")" >&2; return 1; }
    spent=$(($(date +%s%N) - start))
    line=$(tail -n 1 "$work/time")
    read -r user system <<<"$line"
    user=$((10#${user/./} + 10#${system/./}))
    [ -n "$best_ns" ] && [ "$best_ns" -le "$spent" ] || best_ns=$spent
    [ -n "$best_cpu_ms" ] && [ "$best_cpu_ms" -le "$user" ] || best_cpu_ms=$user
  done
}

# paired PAIRS: runs the commands of the arrays `first` and `second` in turn, so often, each of them first in every second pair, and prints how many times as much
# processor time the second one takes: the median of the pairs' ratios, and their quartiles. What else the machine does then meets both alike.
paired() {
  local pairs=$1 k one two
  : >"$work/ratios"
  for ((k = 0; k < pairs; k++)); do
    if ((k % 2)); then
      best 1 "${second[@]}" || return 1
      two=$best_cpu_ms
      best 1 "${first[@]}" || return 1
      one=$best_cpu_ms
    else
      best 1 "${first[@]}" || return 1
      one=$best_cpu_ms
      best 1 "${second[@]}" || return 1
      two=$best_cpu_ms
    fi
    ((one > 0)) || { echo "failed: too short to be timed: ${first[*]}" >&2; return 1; }
    over "$two" "$one" 9 >>"$work/ratios"
    echo >>"$work/ratios"
  done
  sort -n "$work/ratios" | awk '{ v[NR] = $1 }
    function at(part, low) { low = 1 + int(part * (NR - 1)); return v[low] + (part * (NR - 1) + 1 - low) * (v[low < NR ? low + 1 : low] - v[low]) }
    END { printf "%.2f times as much (the median of %d pairs; quartiles %.2f and %.2f)\n", at(0.5), NR, at(0.25), at(0.75) }'
}

# peak_kb COMMAND..: the kilobytes of memory that it held at most, as the kernel counts them (by python3 never less than python3 itself holds, some
# 14,000); nothing where neither tool is there.
peak_kb() {
  if [ -x /usr/bin/time ]; then
    /usr/bin/time -f '%M' -o "$work/peak" "$@" >/dev/null && tail -n 1 "$work/peak"
  elif command -v python3 >/dev/null; then
    python3 -c 'import resource, subprocess, sys
subprocess.run(sys.argv[1:], check=True, stdout=subprocess.DEVNULL)
print(resource.getrusage(resource.RUSAGE_CHILDREN).ru_maxrss)' "$@"
  fi
}

# over A B [DIGITS]: A / B, with so many digits after the point (two, where none are named).
over() { awk -v a="$1" -v b="$2" -v d="${3:-2}" 'BEGIN { printf "%.*f", d, a / b }'; }
