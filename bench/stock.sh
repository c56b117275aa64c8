#!/bin/sh
# Measures this project's icepack, iceunpack, icemulti and icebram and the stock ones side by side: wall time and peak
# memory, on the examples and on a full text of an HX8K, and on the bitstreams of these.
#
# Then, in a table of its own, this project's icepack and iceunpack with a layout file and without one, on the last text.
#
# Usage: bench/stock.sh [TEXT...]     without names: the examples and the full text
#
# The program is that of the environment variable ICESTORM, or else the one that ./icestorm runs; the stock tools are those on the PATH.
# Status 0: all were measured; 1: a tool refuses a text; 127: the program or a tool is missing.
set -eu

top=$(cd "$(dirname "$0")/.." && pwd)
program=${ICESTORM:-$("$top/dist/choose" || true)}

[ -x "$program" ] || { echo "bench/stock.sh: there is no program $program" >&2; exit 127; }
program=$(realpath "$program")
for tool in icepack iceunpack icemulti icebram python3; do
  command -v "$tool" >/dev/null || { echo "bench/stock.sh: $tool isn't installed" >&2; exit 127; }
done

work=$(mktemp -d)
trap 'rm -rf "$work"' EXIT

if [ $# -eq 0 ]; then
  PYTHONPATH=$top/check python3 -c 'from modules.full_8k import full_text; print(end=full_text())' >"$work/full_8k.asc"
  set -- "$top"/examples/*.asc "$top"/examples/*/*.asc "$work/full_8k.asc"
fi
python3 "$top/bench/modules/measure.py" "$program" "$work" "$@"
