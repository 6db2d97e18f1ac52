#!/usr/bin/env bash
# The repository's own checks, behind the gate. Each example gives the transcript and the status that stand beside it, under the words that stand
# beside it, or else over one node. A script of 140 lines of puts, gets and deletes, and of stops and restarts of one node after the other, over three
# replicas ends well under each of 100 schedules, twice with the same transcript: what is got is what was put, and nothing is got behind the ok of its delete.
set -u
top=$(cd "$(dirname "$0")/.." && pwd) || exit 1
# The runs have their disks in memory where the machine has a folder for that, since each put waits until its disks are synced.
work=$(mktemp -d -p /dev/shm 2> /dev/null || mktemp -d) || exit 1
trap 'rm -rf "$work"' EXIT
cd "$work" || exit 1
failed=0

# Runs the program with these words over a new folder: the script is read on standard input, and the transcript written on standard output.
run_anew() {
  rm -rf disks
  "$top/ambry_lab" "$@" --folder disks
}

# What `cat` finds in a file, or else these words.
file_or() {
  if [ -f "$1" ]; then cat "$1"; else echo "$2"; fi
}

for script in "$top"/examples/*.script; do
  base=${script%.script}
  read -r -a words <<< "$(file_or "$base.words" "run --nodes 1")"
  run_anew "${words[@]}" < "$script" > transcript
  status=$?
  if [ "$status" != "$(file_or "$base.status" 0)" ] || ! cmp transcript "$base.transcript"; then
    failed=$((failed + 1))
    echo "$script: not the transcript or the status beside it, but status $status"
  fi
done
echo "examples: $(ls "$top"/examples/*.script | wc -l), and $failed not as they stand"

for n in $(seq 1 20); do
  node=$((n % 3 + 1))
  printf 'put a%d hex %04x\nstop %d\nwait\nget b%d $a%d\nrestart %d\ndel d%d $a%d\nget c%d $a%d\n' "$n" "$n" "$node" "$n" "$n" "$node" "$n" "$n" "$n" "$n"
  printf 'b%d ok 2 %04x\nc%d ok 2 %04x\n' "$n" "$n" "$n" "$n" >> right
done > script
ended=0
changed=0
words=(run --segment 66736 --segments 3)
for seed in $(seq 1 100); do
  run_anew "${words[@]}" --seed "$seed" < script > once && ended=$((ended + 1))
  run_anew "${words[@]}" --seed "$seed" < script > again
  cmp once again || changed=$((changed + 1))
  cat once >> all
done
wrong=$(grep '^[bc][0-9]* ok' all | grep -c -v -x -F -f right)
# A transcript begins with the first put, and get cN begins behind the end of delete dN.
late=$(awk '$1 == "a1" && $2 == "begun" { split("", deleted) }
  /^d[0-9]+ ok$/ { deleted[substr($1, 2)] = 1 }
  /^c[0-9]+ ok / && (substr($1, 2) in deleted) { late++ }
  END { print late + 0 }' all)
echo "schedules: 100, of which $ended ended well and $changed gave two transcripts, with $wrong wrong gets and $late gets behind a delete"
[ "$ended" = 100 ] && [ "$changed" = 0 ] && [ "$wrong" = 0 ] && [ "$late" = 0 ] && [ "$failed" = 0 ]
