#!/usr/bin/env bash
# The pictures in docs/ are the ones that scripts/pictures.py makes of crates.txt and of the trace of examples/three-hosts.
set -u
cd "$(dirname "$0")/.." || exit 1
command -v python3 >/dev/null || { echo "skipped: python3 is not installed"; exit 0; }
work=$(mktemp -d) || exit 1
trap 'rm -rf "$work"' EXIT
python3 scripts/pictures.py "$work" || { echo "failed: scripts/pictures.py"; exit 1; }
for picture in crates.svg packet.svg; do
  cmp -s "docs/$picture" "$work/$picture" || { echo "failed: docs/$picture is not what scripts/pictures.py makes; run it"; exit 1; }
  python3 -c 'import sys, xml.dom.minidom; xml.dom.minidom.parse(sys.argv[1])' "docs/$picture" || { echo "failed: docs/$picture is no XML"; exit 1; }
done
python3 scripts/pictures.py "$work/nowhere" 2>"$work/said"
[ $? = 2 ] && [ "$(wc -l <"$work/said")" = 1 ] || { echo "failed: the answer to a folder that is not there"; exit 1; }
echo "passed: the pictures in docs/ are made of crates.txt and of the example's trace"
