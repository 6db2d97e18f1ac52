#!/usr/bin/env bash
# Runs of the built program over one folder of real files. A second run gets what the first one put. A run that is killed between two
# lines, or at one, leaves a folder from which every put that was acknowledged is got.
set -u
top=$(cd "$(dirname "$0")/.." && pwd) || exit 1
work=$(mktemp -d) || exit 1
program=""
trap '[ -z "$program" ] || kill -9 "$program"; rm -rf "$work"' EXIT
cd "$work" || exit 1
failed=0
words=(run --segment 66736 --segments 8)

# The body of put N, in digits.
body_of() {
  printf '%08x%0200d' "$1" "$1"
}

# Puts of these numbers, each waited for.
puts_of() {
  local n
  for n in "$@"; do
    printf 'put p%d hex %s\nwait\n' "$n" "$(body_of "$n")"
  done
}

# The puts that a transcript acknowledges, as lines `N ID`.
puts_in() {
  sed -n 's/^p\([0-9]*\) ok \([0-9a-f]\{40\}\)$/\1 \2/p' "$1"
}

# Gets the blob of each line `N ID` of standard input, in a session of its own over a folder, and says how many weren't as they were put.
wrong_gets() {
  local n id
  : > script
  : > right
  while read -r n id; do
    echo "get g$n $id" >> script
    printf 'g%d ok 104 %s\n' "$n" "$(body_of "$n")" >> right
  done
  "$top/ambry_lab" "${words[@]}" --ids 1 --folder "$1" < script > got
  grep ' ok ' got | sort > got.sorted
  sort right | comm -3 - got.sorted | wc -l
}

# Says how many puts a transcript has and how many of them a later run over the folder doesn't get, where at least so many are wanted.
judge() {
  local count wrong
  count=$(puts_in "$1" | wc -l)
  wrong=$(puts_in "$1" | wrong_gets "$2")
  echo "$4: $count puts, of which $wrong weren't got by the next run"
  [ "$count" -ge "$3" ] && [ "$wrong" = 0 ] || failed=1
}

puts_of $(seq 1 200) | "$top/ambry_lab" "${words[@]}" --ids 0 --folder whole > whole.transcript
judge whole.transcript whole 200 "two runs"

for cut in 1 5 20 60; do
  mkfifo lines
  "$top/ambry_lab" "${words[@]}" --ids 0 --folder "cut$cut" < lines > cut.transcript &
  program=$!
  # The pipe stays open and has room for these lines, so that the program is at one of them, or waits for a further one.
  exec 3<> lines
  puts_of $(seq 1 $((cut + 40))) >&3
  for _ in $(seq 1 6000); do
    [ "$(puts_in cut.transcript | wc -l)" -ge "$cut" ] || ! kill -0 "$program" 2> /dev/null && break
    sleep 0.01
  done
  { kill -9 "$program" && wait "$program"; } 2> /dev/null
  program=""
  exec 3>&-
  rm lines
  judge cut.transcript "cut$cut" "$cut" "a run that was killed behind put $cut or later"
done
[ "$failed" = 0 ]
