#!/usr/bin/env bash
# How the disks beside this file were made, by the program as it stood on 2 December 2026: `bash tests/disks/make.sh`, where there are
# none yet, runs three sessions over three nodes and two partitions, and packs what they leave. Later programs don't make them again:
# tests/disks.sh shows that they open what the earlier one wrote.
set -eu
here=$(cd "$(dirname "$0")" && pwd)
if compgen -G "$here/*.gz" > /dev/null; then
  echo "the disks are there already"
  exit 1
fi
work=$(mktemp -d)
trap 'rm -rf "$work"' EXIT
cd "$work"
words=(run --partitions 2 --segment 66736 --segments 3)

# So many bytes of this digit twice, in digits.
bytes() {
  printf "%0$((2 * $1))d" 0 | tr 0 "$2"
}

session() {
  "$here/../../ambry_lab" "${words[@]}" --folder disks --ids "$1"
}

# Puts in both partitions, of which some are deleted, and more than a segment holds: the logs roll.
{
  for n in 1 2 3 4 5 6; do
    printf 'put a%d hex %s\n' "$n" "$(bytes "$n" "$n")"
  done
  printf 'put empty hex -\nput more hex 00ff10\nwait\ndel d1 $a1\ndel d2 $a2\nwait\n'
  for n in 1 2 3 4; do
    printf 'put b%d hex %s\nwait\n' "$n" "$(bytes 33000 "$n")"
  done
  printf 'del e1 $b1\ndel e2 $b2\ndel e3 $b3\ndel e4 $b4\nwait\n'
  printf 'put b5 hex %s\nput b6 hex %s\nwait\nget c1 $a3\nget c2 $a1\nwait\n' "$(bytes 1000 5)" "$(bytes 1000 6)"
} | session 1

# Node 2 and then node 3 miss puts and deletes, and node 3 is stopped when the run ends.
{
  for n in 1 2 3 4; do
    printf 'put a%d hex %s\n' "$n" "$(bytes $((10 * n)) "$n")"
  done
  printf 'wait\nstop 2\nput b1 hex b1\nput b2 hex b2\ndel d1 $a1\ndel d2 $a2\nwait\nrestart 2\n'
  printf 'stop 3\nput b3 hex b3\nput b4 hex b4\ndel d3 $a3\ndel d4 $b1\nwait\n'
} | session 2

# All nodes again: deletes of what a node missed, and puts behind them.
printf 'put a1 hex %s\nput a2 hex a2\nwait\ndel d1 $a2\nput a3 hex a3\nwait\n' "$(bytes 300 7)" | session 3

gzip -9 -n disks/*
mv disks/* "$here"
