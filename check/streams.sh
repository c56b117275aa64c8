#!/usr/bin/env bash
# Runs the program over files and streams that aren't plain files: named pipes, full devices, folders, files of exactly a limit and of one
# byte more, a file that is its own target, long names, a database past 128 MiB. It looks at statuses, lines and what was written.
#
# Usage: check/streams.sh
#
# The program is that of the environment variable ICESTORM, or else the one that ./icestorm runs.
# Only what failed is told. The last line is 'N passed, M failed'. Status 0: all passed; 1: something failed; 127: there is no program.
set -euo pipefail

top=$(cd "$(dirname "${BASH_SOURCE[0]}")/.." && pwd)
program=${ICESTORM:-$("$top/dist/choose" || true)}
[ -x "$program" ] || { echo "check/streams.sh: there is no program $program" >&2; exit 127; }
program=$(realpath "$program")

work=$(mktemp -d)
trap 'rm -rf "$work"' EXIT
cp "$top/examples/one_bit.asc" "$work/in.asc"
cd "$work"
mkdir folder
mkfifo pipe
: >empty
"$program" icepack in.asc want.bin
passed=0
failed=0

# tell WHAT [FAULT]: counts something that passed, or tells what is wrong
tell() {
  if [ -z "${2-}" ]; then
    passed=$((passed + 1))
  else
    failed=$((failed + 1))
    echo "FAILED: $1: $2"
  fi
}

# expect STATUS LINE ARGUMENT..: runs the program, which must end with this status and say this line, or nothing where it is empty
expect() {
  local status=$1 line=$2 got=0 fault=
  shift 2
  timeout 60 "$program" "$@" >out 2>err || got=$?
  [ "$got" -eq "$status" ] || fault="status $got, and it should be $status"
  [ "$(cat err)" = "$line" ] || fault="it says '$(cat err)', and it should say '$line'"
  tell "$*" "$fault"
}

# same WHAT FILE: a file must be the bitstream that is wanted
same() { if cmp -s "$2" want.bin; then tell "$1"; else tell "$1" "another bitstream"; fi; }

# slowly FILE: writes a file in two parts
slowly() { head -c 1000 "$1"; sleep 0.2; tail -c +1001 "$1"; }

# named pipes, as input, as standard input and as target
slowly in.asc >pipe & expect 0 "" icepack pipe; wait; same "from a named pipe" out
slowly in.asc >pipe & expect 0 "" icepack <pipe; wait; same "standard input from a named pipe" out
cat pipe >got & expect 0 "" icepack in.asc pipe; wait; same "to a named pipe" got
: >pipe & expect 1 "iceunpack: offset 0: NoPreamble" iceunpack pipe; wait
expect 1 "iceunpack: offset 0: NoPreamble" iceunpack empty
expect 1 "iceunpack: offset 0: NoPreamble" iceunpack </dev/null

# names of more than 300 bytes, of a file, a named pipe and a target, and of as many bytes as the system opens, and one more
deep=$(printf 'd%.0s' {1..200})/$(printf 'e%.0s' {1..100})
mkdir -p "$deep"
cp in.asc "$deep/in.asc"
mkfifo "$deep/pipe"
expect 0 "" icepack "$deep/in.asc"; same "from a long name" out
slowly in.asc >"$deep/pipe" & expect 0 "" icepack "$deep/pipe"; wait; same "from a named pipe with a long name" out
expect 0 "" icepack in.asc "$deep/out"; same "to a long name" "$deep/out"
front=$(printf './%.0s' {1..2044})
expect 0 "" icepack "$front/in.asc"; same "from a name of 4,095 bytes" out
expect 3 "icepack: read failed: $front//in.asc" icepack "$front//in.asc"

# a database that goes on past 128 MiB, through a named pipe
{ head -c 140000000 /dev/zero | tr '\0' '\n'; echo .device 1k; } >"$deep/pipe" &
expect 1 "icebox_stat: database line 140000001: Device" icebox_stat "$deep/pipe" want.bin; wait

# what can't be read or written
expect 3 "icepack: read failed: missing" icepack missing
expect 3 "icepack: read failed: folder" icepack folder
expect 3 "icepack: read failed: standard input" icepack <folder
expect 4 "icepack: write failed: /dev/full" icepack in.asc /dev/full
expect 4 "icepack: write failed: folder" icepack in.asc folder
expect 4 "icepack: write failed: missing/out" icepack in.asc missing/out
if [ -e missing ]; then tell "a target in a folder that is missing" "the folder was made"; else tell "a target in a folder that is missing"; fi

# files of exactly the limit, which are refused for what they hold, and of one byte more
for limit in "icepack 16777216 line 1: StrayData" "iceunpack 4194304 offset 4194304: NoPreamble"; do
  read -r tool bytes fault <<<"$limit"
  truncate -s "$bytes" long
  expect 1 "$tool: $fault" "$tool" long
  truncate -s $((bytes + 1)) long
  expect 6 "$tool: too long: long limit $bytes" "$tool" long
  expect 6 "$tool: too long: standard input limit $bytes" "$tool" <long
  expect 6 "$tool: too long: /dev/zero limit $bytes" "$tool" /dev/zero
done

# a target that was longer is emptied before, an input stays as it is, and an input may be the target
head -c 1000000 /dev/zero >target
expect 0 "" icepack in.asc target
same "over a longer file" target
if cmp -s in.asc "$top/examples/one_bit.asc"; then tell "the input"; else tell "the input" "it isn't as it was"; fi
cp in.asc both
expect 0 "" icepack both both
same "the input as the target" both

echo "$passed passed, $failed failed"
[ "$failed" -eq 0 ]
