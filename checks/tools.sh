#!/usr/bin/env bash
# The operator's tools say of examples/three-hosts what its README says of it, answer a wrong argument with one line and status 2, and take at most ten seconds of
# processor time for a trace of 800,000 lines.
# The trace is the one that was written down by hand, so no built program is needed.
set -u
cd "$(dirname "$0")/.." || exit 1
command -v python3 >/dev/null || { echo "skipped: no python3"; exit 0; }
work=$(mktemp -d) || exit 1
trap 'rm -rf "$work"' EXIT
example=examples/three-hosts
of=("$example/trace.txt" "$example/scenario.json" "$example/traffic.pcap")
failed() { echo "failed: $1" >&2; exit 1; }

# Sixteen packets are delivered and six dropped: by the rules of the example, counted from its list of packets.
tools/fates "$example/trace.txt" --counts >"$work/counts" || failed "fates --counts"
diff - "$work/counts" <<'END' || failed "the counts of fates differ"
packets  fate       reason
5        delivered  ingress rule 2
5        delivered  ingress rule 3
3        delivered  ingress rule 1
3        dropped    ingress implied
2        delivered  ingress rule 5
2        dropped    noowner
1        delivered  ingress rule 4
1        dropped    egress rule 6
END
tools/fates "$example/trace.txt" --scenario "${of[1]}" --capture "${of[2]}" --csv >"$work/table" || failed "fates --csv"
grep -qx '16,tcp 10.1.0.30:35678 > 10.1.0.20:22,dropped,egress rule 6,h2' "$work/table" || failed "the row of packet 16"
tools/fates "$example/trace.txt" --against "$example/trace.txt" >"$work/same" || failed "fates --against"
[ "$(wc -l <"$work/same")" = 1 ] || failed "a run differs from itself"

# Another fate of one packet is the only difference.
sed 's/^ingress h1.w0 12 12 slow vm 1 running implied drop$/ingress h1.w0 12 12 slow vm 1 running rule 4 deliver/' "${of[0]}" >"$work/other"
tools/fates "$example/trace.txt" --against "$work/other" >"$work/differs" || failed "fates --against"
diff - "$work/differs" <<'END' || failed "the differences differ"
packet  flow  fate     reason           fate there  reason there
12            dropped  ingress implied  delivered   ingress rule 4
END

tools/story "${of[0]}" 16 "${of[1]}" "${of[2]}" >"$work/story" || failed "story"
diff - "$work/story" <<'END' || failed "the story of packet 16 differs"
packet 16: tcp 10.1.0.30:35678 > 10.1.0.20:22, 74 bytes, captured 2026-12-01 05:02:50.919079 UTC
from VM client (10.1.0.30) of network 7
  1. step 29: VM client sends it
  2. h2.w0 takes it from the out queue; h2 has installed 12 operations
  3. h2.w0 decides at 12 (slow path): denied by rule 6 of network 7 (egress deny tcp port 22, priority 50): dropped
END

# Of examples/sealed: a packet on its way over the coprocessor, two that are lost before and behind it.
sealed=examples/sealed
ways=("$sealed/scenario.json" "$sealed/traffic.pcap")
told() { tools/story "$1" "$2" "${ways[@]}" | grep -E ' (decides|computes) ' | sed 's/^ *[0-9]*\. //'; }
told "$sealed/trace.txt" 10 | head -2 >"$work/story" || failed "story of a sealed packet"
told "$sealed/trace.txt" 66 >>"$work/story" || failed "story of a packet at a full seal queue"
sed -e '/^sealed h1.c 10 queued$/{ s/queued/full/; q; }' "$sealed/trace.txt" >"$work/other"
told "$work/other" 10 | sed -n 2p >>"$work/story"
diff - "$work/story" <<'END' || failed "the stories of sealed packets differ"
h1.w0 decides at 10 (slow path): allowed by rule 5 of network 7 (egress allow tcp port 5432 sealed, priority 50); to be sealed, and then to the hoverboard g0 with VNI 7
h1.c computes the outer UDP checksum and sends it on to g0
h1.w0 decides at 12 (fast path): allowed by rule 5 of network 7 (egress allow tcp port 5432 sealed, priority 50); to be sealed, and then by an offloaded flow straight to h2 with VNI 7, but the queue of the coprocessor is full: the packet is lost
h1.c computes the outer UDP checksum and sends it on to g0, whose queue is full: the packet is lost
END
tools/fates "$sealed/trace.txt" --counts | grep '^[0-9]* *lost' >"$work/lost"
[ "$(cat "$work/lost")" = "3        lost       full seal queue" ] || failed "the packets lost at the full seal queue"
tools/fates "$work/other" --counts | grep -q '^1 *lost *full wire queue$' || failed "the packet lost behind the coprocessor"
# The coprocessor sends, so the one arrow to the gateway begins at the line of `sealed`.
tools/ladder "$sealed/trace.txt" "${ways[@]}" --packet 10 >"$work/ladder.svg" || failed "ladder of a sealed packet"
[ "$(grep -c 'marker-end' "$work/ladder.svg")" = 2 ] || failed "the arrows of a sealed packet"

for which in "--packet 2" "--vm web"; do
  # shellcheck disable=SC2086
  tools/ladder "${of[@]}" $which >"$work/ladder.svg" || failed "ladder $which"
  python3 -c 'import sys, xml.dom.minidom; xml.dom.minidom.parse(sys.argv[1])' "$work/ladder.svg" || failed "the ladder of $which is no XML"
done
tools/scenario-from-capture "${of[2]}" --hosts 3 >"$work/first.json" || failed "scenario-from-capture"
[ "$(grep -c add_vm "$work/first.json")" = 4 ] || failed "a scenario of other than the four sources"

# Wrong arguments: one line, status 2.
wrong() {
  "$@" >"$work/out" 2>"$work/said"
  [ $? = 2 ] && [ "$(wc -l <"$work/said")" = 1 ] && [ ! -s "$work/out" ] || failed "the answer to: $*"
}
wrong tools/fates
wrong tools/fates nowhere
wrong tools/fates "${of[2]}"
wrong tools/fates "${of[0]}" --scenario "${of[1]}"
wrong tools/story "${of[0]}" x "${of[1]}" "${of[2]}"
wrong tools/story "${of[0]}" 22 "${of[1]}" "${of[2]}"
wrong tools/ladder "${of[@]}"
wrong tools/ladder "${of[@]}" --vm nobody
wrong tools/scenario-from-capture "${of[1]}"
# Traces that are none, behind their title; the last is cut.
printf 'andromeda trace 1\ningress h1.w0\n' >"$work/short"
printf 'andromeda trace 1\negress h1.w0 x 1 slow allow\n' >"$work/spoilt"
head -c 3000 "${of[0]}" >"$work/cut"
wrong tools/fates "$work/short"
wrong tools/fates "$work/cut"
wrong tools/story "$work/spoilt" 0 "${of[1]}" "${of[2]}"
wrong tools/ladder "$work/spoilt" "${of[1]}" "${of[2]}" --packet 0
wrong tools/ladder "$work/cut" "${of[1]}" "${of[2]}" --packet 21
wrong tools/scenario-from-capture "${of[2]}" --hosts 65
for tool in fates story ladder scenario-from-capture; do
  "tools/$tool" --help >"$work/out" && grep -q usage "$work/out" || failed "$tool --help"
done

# 800,000 lines within ten seconds of processor time, so that other work on the machine does not matter.
awk 'BEGIN { print "andromeda trace 1"; for (p = 0; p < 100000; p++) {
  print "inject " p " " p " queued\ntake h0.w0 out " p "\negress h0.w0 " p " 4 slow allow implied plain hover g0 queued\ntake g0.w wire " p
  print "route g0.w " p " 4 implied send h1 7 queued\ntake h1.w0 wire " p "\ningress h1.w0 " p " 4 slow vm 1 running rule 1 deliver\nannounce h0 4" } }' >"$work/long"
(ulimit -t 10; tools/fates "$work/long" --counts) >"$work/out" || failed "fates took more than ten seconds on 800,000 lines"
diff - "$work/out" <<'END' || failed "the counts of the long trace"
packets  fate       reason
100000   delivered  ingress rule 1
END
(ulimit -t 10; tools/story "$work/long" 2 "${of[1]}" "${of[2]}") >"$work/out" || failed "story took more than ten seconds on 800,000 lines"
(ulimit -t 10; tools/ladder "$work/long" "${of[1]}" "${of[2]}" --packet 2) >"$work/out" || failed "ladder took more than ten seconds on 800,000 lines"
echo "passed: the operator's tools"
