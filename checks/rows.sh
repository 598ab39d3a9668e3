#!/usr/bin/env bash
# The texts of the rows, crates/rows/data, and the lines of crates/input_rows and crates/wire_rows are those that the model of scripts/model.py composes,
# which shares nothing with the programs.
set -u
cd "$(dirname "$0")/.." || exit 1
command -v python3 >/dev/null || { echo "skipped: python3 is not installed"; exit 0; }
python3 scripts/rows.py --check || { echo "failed: a row is not what the model composes"; exit 1; }
work=$(mktemp -d) || exit 1
trap 'rm -rf "$work"' EXIT
for rows in input_rows wire_rows; do
  python3 "scripts/$rows.py" "$work" >"$work/said" || { echo "failed: scripts/$rows.py"; exit 1; }
  for lines in stdin stdout; do
    cmp -s "$work/$lines" "crates/$rows/$lines" || { echo "failed: crates/$rows/$lines is not what scripts/$rows.py writes"; exit 1; }
  done
done
echo "passed: every row is what the model composes"
