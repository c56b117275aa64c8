#!/usr/bin/env bash
# Makes real texts of nextpnr, one of them for a nearly full HX8K, and measures this project's tools and the stock ones over them side by
# side: processor time and peak memory.
#
# Usage: bench/routed.sh [-m] [FOLDER [ROUNDS]]
#
# -m           makes the texts alone
# FOLDER       where they are kept, ${TMPDIR:-/tmp}/routed if it is missing; a text that is there already isn't made anew
# ROUNDS       how often each tool runs over a text, 15 if it is missing
#
# bench/routed.v is the design: full_8k.asc has 32 of its lanes, small_8k.asc two, and full_1k.asc four on an HX1K. from.hex has the words
# that all their RAMs have at the start, to.hex others. Before it measures, it compares what the two icepack, under the layout of real
# chips, and the two icebram write. bench/modules/measure_routed.py tells how it is measured.
#
# The program is that of the environment variable ICESTORM, or else the one that ./icestorm runs; the stock tools are those on the PATH. The
# environment variable CHIPDB may name another folder with chipdb-8k.txt than that of Debian's package fpga-icestorm-chipdb.
# Status 0: all is made and measured; 1: a tool refuses its input, or two files differ; 2: the words aren't taken; 127: a program is missing.
set -euo pipefail

here=$(cd "$(dirname "${BASH_SOURCE[0]}")" && pwd)
program=${ICESTORM:-$("$here/../dist/choose" || true)}
database=${CHIPDB:-/usr/share/fpga-icestorm/chipdb}/chipdb-8k.txt
layout=$here/../layouts/silicon.layout

is_measured=yes
if [ "${1-}" = -m ]; then
  is_measured=no
  shift
fi
folder=${1:-${TMPDIR:-/tmp}/routed}
rounds=${2:-15}
case $#,$folder,$rounds in
[3-9]*,* | *,-* | *,*,0* | *,*,*[!0-9]*)
  echo "usage: bench/routed.sh [-m] [FOLDER [ROUNDS]]" >&2
  exit 2
  ;;
esac

need() { command -v "$1" >/dev/null || { echo "bench/routed.sh: $1 is missing" >&2; exit 127; }; }

for tool in yosys nextpnr-ice40 icebram; do need "$tool"; done
if [ $is_measured = yes ]; then
  for tool in "$program" icepack icebox_explain icebox_vlog python3; do need "$tool"; done
  [ -r "$database" ] || { echo "bench/routed.sh: there is no $database" >&2; exit 127; }
  program=$(realpath "$program")
fi

mkdir -p "$folder"
folder=$(cd "$folder" && pwd)
work=$(mktemp -d)
trap 'rm -rf "$work"' EXIT

# make_words: the words of the RAMs, 256 for each, and a file for each RAM, as the design reads them
make_words() {
  icebram -g -s 1 16 8192 >"$work/from.hex"
  icebram -g -s 2 16 8192 >"$work/to.hex"
  (cd "$work" && split -l 256 -d -a 2 --additional-suffix .hex from.hex words_)
  mv "$work/from.hex" "$work/to.hex" "$folder"
}

# make_text NAME DEVICE PACKAGE CLOCK BANKS LANES METERS: a text of so many banks, lanes in each, and meters in each lane. CLOCK is the
# pin of the clock, and nextpnr chooses the others. The seed is fixed.
make_text() {
  [ ! -e "$folder/$1.asc" ] || return 0
  echo "set_io clk_pin $4" >"$work/$1.pcf"
  (cd "$work" && yosys -q -p "read_verilog $here/routed.v; chparam -set BANKS $5 -set LANES $6 -set METERS $7 routed;
    synth_ice40 -top routed -json $1.json")
  nextpnr-ice40 -q "--$2" --package "$3" --freq 12 --seed 1 --json "$work/$1.json" --pcf "$work/$1.pcf" --pcf-allow-unconstrained \
    --asc "$work/$1.asc" --log "$folder/$1.log" 2>"$work/said" || { cat "$work/said" >&2; exit 1; }
  mv "$work/$1.asc" "$folder"
}

# used CELL NAME: how many cells of a kind a text has, and of how many, as nextpnr tells it
used() { sed -n "s|^Info:.*$1: *\([0-9]*\)/ *\([0-9]*\).*|\1 of \2|p" "$folder/$2.log" | tail -n 1; }

# describe NAME: a line with how much there is in a text
describe() {
  echo "$1.asc: $(wc -c <"$folder/$1.asc") bytes, $(grep -c '^\.sym ' "$folder/$1.asc") names of nets," \
    "cells $(used ICESTORM_LC "$1"), RAMs $(used ICESTORM_RAM "$1")"
}

# same WHAT OWN STOCK: ends the script where two files differ
same() { cmp "$2" "$3" >&2 || { echo "bench/routed.sh: $1: they differ" >&2; exit 1; }; }

# compare NAME: what the two icepack and the two icebram write of a text, the latter with the words of its RAMs alone
compare() {
  local text=$folder/$1.asc rams
  "$program" icepack --layout "$layout" "$text" "$work/own"
  icepack "$text" "$work/stock"
  same "icepack of $1.asc" "$work/own" "$work/stock"
  rams=$(used ICESTORM_RAM "$1")
  for words in from to; do head -n $((256 * ${rams%% *})) "$folder/$words.hex" >"$work/$words.hex"; done
  "$program" icebram "$work/from.hex" "$work/to.hex" <"$text" >"$work/own"
  icebram "$work/from.hex" "$work/to.hex" <"$text" >"$work/stock"
  same "icebram of $1.asc" "$work/own" "$work/stock"
  ! cmp -s "$text" "$work/own" || { echo "bench/routed.sh: icebram of $1.asc replaces nothing" >&2; exit 1; }
}

make_words
make_text small_8k hx8k ct256 J3 1 2 8
make_text full_1k hx1k tq144 21 1 4 8
make_text full_8k hx8k ct256 J3 8 4 5
for name in small_8k full_1k full_8k; do describe "$name"; done
[ $is_measured = yes ] || exit 0
for name in small_8k full_1k full_8k; do compare "$name"; done
echo
python3 "$here/modules/measure_routed.py" "$program" "$folder" "$database" "$rounds"
