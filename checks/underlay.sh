#!/usr/bin/env bash
# tshark reads the outer packets as VXLAN in network 7, each with a good checksum of its outer IPv4 header. Of the rows that seal it finds the outer UDP checksum
# good in each send of a sealed packet, and not present in all others; and it finds a byte that is changed.
set -eu
cd "$(dirname "$0")/.."
for tool in tshark python3; do
  command -v "$tool" >/dev/null || { echo "skipped: $tool is not installed"; exit 0; }
done
folder=$(mktemp -d)
trap 'rm -rf "$folder"' EXIT
python3 scripts/underlay_capture.py crates/wire_rows 2 "$folder/underlay.pcap"
# Of the fields that stand in the outer and in the inner packet, the first is the outer one. Status 1 is good.
tshark -n -o ip.check_checksum:TRUE -r "$folder/underlay.pcap" -T fields -E separator=/s -E occurrence=f \
  -e vxlan.vni -e ip.checksum.status -e ip.src -e ip.dst -e udp.dstport >"$folder/read"
printf '%s\n' '7 1 172.16.0.1 172.17.0.1 4789' '7 1 172.17.0.1 172.16.1.1 4789' >"$folder/wanted"
diff "$folder/wanted" "$folder/read"

# sums CAPTURE: what tshark says of the outer UDP checksum of each packet: 0 bad, 1 good, 3 not present.
sums() { tshark -n -o udp.check_checksum:TRUE -r "$1" -T fields -E occurrence=f -e udp.checksum.status 2>/dev/null; }
rows=0 sealed=0
for row in $(grep -l '^sealed .* queued$' crates/rows/data/*/out.trace); do
  row=${row%/out.trace}
  [ -f "$row/out.underlay.pcap" ] || continue
  awk -f scripts/sums.awk "$row/out.trace" >"$folder/wanted"
  sums "$row/out.underlay.pcap" >"$folder/read"
  diff "$folder/wanted" "$folder/read" || { echo "failed: tshark finds other checksums in $row"; exit 1; }
  rows=$((rows + 1)) sealed=$((sealed + $(grep -c 1 "$folder/read")))
done
[ "$sealed" -gt 0 ] || { echo "failed: no row has a sealed packet"; exit 1; }
# One byte of the frame in the first packet of a capture, behind 24 bytes of the file's header, 16 of the record's and 36 of the packet's.
cp crates/rows/data/sealed-by-the-coprocessor/out.underlay.pcap "$folder/changed.pcap"
printf '\377' | dd of="$folder/changed.pcap" bs=1 seek=76 conv=notrunc status=none
[ "$(sums "$folder/changed.pcap" | head -1)" = 0 ] || { echo "failed: tshark does not find a changed byte"; exit 1; }
echo "passed: tshark reads both outer packets, and finds $sealed sealed ones in $rows rows, with good checksums"
