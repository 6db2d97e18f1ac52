#!/usr/bin/env bash
# Disks that an earlier program wrote open with the same blobs: those in tests/disks, which tests/disks/make.sh tells of. Each blob is got
# from all nodes together, from what that run left once more, and from each node alone, whose disks may lack what it missed.
set -u
top=$(cd "$(dirname "$0")/.." && pwd) || exit 1
kept="$top/tests/disks"
work=$(mktemp -d) || exit 1
trap 'rm -rf "$work"' EXIT
cd "$work" || exit 1
failed=0

# Lays the disks into a new folder as they were kept.
unpack() {
  local file
  rm -rf disks
  mkdir disks
  for file in "$kept"/*.gz; do
    gzip -dc "$file" > "disks/$(basename "$file" .gz)"
  done
}

# Runs the script of standard input with these further words, and holds how its gets end to the transcript of this name.
gets_are() {
  local name=$1
  shift
  "$top/ambry_lab" run --partitions 2 --segment 66736 --segments 3 --ids 9 --folder disks "$@" > transcript
  status=$?
  grep -v -e ' begun$' -e '^stop ' transcript | cmp - "$kept/$name.transcript" && [ "$status" = 0 ] && return
  failed=$((failed + 1))
  echo "$kept/$name.transcript: the gets end in another way, or the status is $status and not 0"
}

unpack
gets_are together < "$kept/gets.script"
gets_are together < "$kept/gets.script"
for node in 1 2 3; do
  unpack
  { for other in 1 2 3; do [ "$other" = "$node" ] || echo "stop $other"; done && cat "$kept/gets.script"; } > alone.script
  gets_are "alone$node" --get 1 < alone.script
done
echo "disks of an earlier program: 5 runs, and $failed that didn't get what is on them"
[ "$failed" = 0 ]
