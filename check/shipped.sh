#!/bin/sh
# Looks that ./icestorm runs the program of dist/ only if it is the one that dist/BUILT names, was made of the sources that are there, and can be
# run; and that a line says so if it isn't. It works on a copy of the sources and of dist/, with a bare PATH.
#
# Usage: check/shipped.sh
# The last line is 'N passed, M failed'. Status 0: all passed; 1: something failed.
set -u
top=$(CDPATH='' cd -- "$(dirname "$0")/.." && pwd)
work=$(mktemp -d)
trap 'rm -rf "$work"' EXIT
passed=0
failed=0

# copy: makes the copy
copy() {
  mkdir "$work/copy" "$work/copy/crates"
  cp -R "$top/crates.txt" "$top/icestorm" "$work/copy"
  for crate in "$top"/crates/*; do
    mkdir "$work/copy/crates/${crate##*/}"
    for part in src specs proofs; do
      [ ! -d "$crate/$part" ] || cp -R "$crate/$part" "$work/copy/crates/${crate##*/}"
    done
  done
}

# fresh: dist/ as it was
fresh() {
  rm -rf dist
  cp -R "$top/dist" dist
}

# expect WHAT STATUS WORDS: whether ./icestorm --version ends with this status, and its line has these words
expect() {
  said=$(env -i PATH=/usr/bin:/bin ./icestorm --version 2>&1)
  status=$?
  case $status,$said in
  "$2",*"$3"*) passed=$((passed + 1)) ;;
  *)
    failed=$((failed + 1))
    echo "FAILED: $1: status $status, and it says '$said'"
    ;;
  esac
}

copy
cd "$work/copy" || exit 1
fresh
expect "the program of dist/" 0 "icestorm "
[ -s out/chosen ] && expect "the program of dist/, as it is remembered" 0 "icestorm "
printf X | dd of=dist/icestorm bs=1 seek=1000 conv=notrunc 2>/dev/null
expect "a byte of the program changed, after it was remembered" 126 "isn't the program that dist/BUILT names"
fresh
head -c 100000 "$top/dist/icestorm" >dist/icestorm
expect "the program is cut off" 126 "isn't the program that dist/BUILT names"
rm dist/icestorm
expect "the program is missing" 126 "isn't the program that dist/BUILT names"
fresh
chmod -x dist/icestorm
expect "the program isn't executable" 126 "isn't executable"
fresh
rm dist/BUILT
expect "BUILT is missing" 127 "no program is of these sources"
fresh
echo "// one line more" >>crates/ice_io/src/lib.rt
expect "a source changed" 127 "no program is of these sources"

echo "$passed passed, $failed failed"
[ "$failed" -eq 0 ]
