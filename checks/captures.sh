#!/usr/bin/env bash
# Both captures that a replay of each example writes: the frames in the underlay's packets are the sent frames and those of the other capture are the delivered
# ones as they were captured, by a reader of Python's own (scripts/captures.py); and tshark and tcpdump, where they are installed, open both without an option
# and find VXLAN in each packet of the underlay; and tshark counts as many hops from host to host as the report has offloads and hairpins, and finds the outer UDP
# checksum good in each send of a sealed packet, and not present in all others.
set -u
cd "$(dirname "$0")/.." || exit 1
program=crates/andromeda/out/andromeda
[ -x "$program" ] || { echo "skipped: $program is not built"; exit 0; }
command -v python3 >/dev/null || { echo "skipped: python3 is not installed"; exit 0; }
work=$(mktemp -d) || exit 1
trap 'rm -rf "$work"' EXIT
failed() { echo "failed: $1"; exit 1; }

for example in "two-vms/scenario two-vms/hundred-frames" "three-hosts/scenario three-hosts/traffic" "lag/scenario three-hosts/traffic" "offload/scenario offload/traffic" \
  "migration/scenario migration/traffic" "migration/lag migration/traffic" "sealed/scenario sealed/traffic"; do
  read -r scenario capture <<<"$example"
  folder=${scenario%/*} of=("examples/$scenario.json" "examples/$capture.pcap")
  out=$work/$folder
  "$program" replay "${of[@]}" "$out" >"$work/report" || failed "the replay of $folder"
  python3 scripts/captures.py "${of[@]}" "$out" || failed "the captures of $folder"
  for file in "$out.delivered.pcap" "$out.underlay.pcap"; do
    for tool in tshark tcpdump; do
      command -v "$tool" >/dev/null || { echo "skipped: $tool is not installed"; continue; }
      "$tool" -n -r "$file" >"$work/lines" 2>"$work/errors" || failed "$tool cannot open $file"
      [ -s "$work/lines" ] || failed "$tool finds nothing in $file"
    done
  done
  command -v tshark >/dev/null || continue
  tshark -n -r "$out.underlay.pcap" -T fields -e frame.protocols >"$work/protocols" 2>/dev/null || failed "tshark"
  ! grep -v 'ip:udp:vxlan:eth' "$work/protocols" || failed "a packet of the underlay of $folder is no VXLAN for tshark"
  # A packet that is offloaded, and one that an old host sends after its VM, goes from host to host (172.16.HOST.1), and all others from a host to a gateway or from there to a host.
  tshark -n -r "$out.underlay.pcap" -Y 'ip.src[0:2] == ac:10 && ip.dst[0:2] == ac:10' >"$work/direct" 2>/dev/null || failed "tshark"
  # What finds the queue of its host's coprocessor full counts as offloaded, too, and is not sent.
  hops=$(awk '$1 == "offload" || $1 == "hairpin" { sum += $2 } END { print sum }' "$work/report")
  [ "$(wc -l <"$work/direct")" = $((hops - $(grep -c ' sealed offload .* full$' "$out.trace"))) ] || failed "tshark counts other hops from host to host in $folder than the report"
  tshark -n -o udp.check_checksum:TRUE -r "$out.underlay.pcap" -T fields -E occurrence=f -e udp.checksum.status >"$work/sums" 2>/dev/null || failed "tshark"
  awk -f scripts/sums.awk "$out.trace" | diff - "$work/sums" || failed "tshark finds other checksums in the underlay of $folder than the trace seals"
done
echo "passed: both captures of each example hold the frames that were sent and delivered"
