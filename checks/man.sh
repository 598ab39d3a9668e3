#!/usr/bin/env bash
# The man pages are read without warnings, and the example of andromeda(5) is a scenario that gives the lines of the trace shown there.
set -u
cd "$(dirname "$0")/.." || exit 1
work=$(mktemp -d) || exit 1
trap 'rm -rf "$work"' EXIT
if command -v man >/dev/null; then
  for page in docs/andromeda.1 docs/andromeda.5; do
    MANWIDTH=100 man --warnings -l "$page" >"$work/page" 2>"$work/said" || { echo "failed: man does not read $page"; exit 1; }
    [ ! -s "$work/said" ] || { echo "failed: warnings of $page:"; cat "$work/said"; exit 1; }
  done
else
  echo "skipped: a part: man is not installed"
fi
program=crates/andromeda/out/andromeda
[ -x "$program" ] || { echo "skipped: $program is not built"; exit 0; }
sed -n '/^{"hosts"/,/^\]}$/p' docs/andromeda.5 >"$work/scenario.json"
sed -n '/^inject 5 0 queued$/,/^\.fi$/p' docs/andromeda.5 | grep -v '^\.fi$' >"$work/shown"
"$program" replay "$work/scenario.json" crates/andromeda/data/frames.pcap "$work/out" >"$work/report" || { echo "failed: the example of andromeda(5)"; exit 1; }
sed -n '/^inject/,/^ingress/p' "$work/out.trace" | diff "$work/shown" - || { echo "failed: the trace of andromeda(5) differs"; exit 1; }
echo "passed: the man pages, and the example of andromeda(5)"
