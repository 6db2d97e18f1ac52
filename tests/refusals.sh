#!/usr/bin/env bash
# Folders and disks that the built program refuses or fails at: status 5 says so, and one line on standard error why. A device without
# room is one of 1 MB in memory where that can be mounted, and else a limit on the size of files stands for it. The program runs as nobody
# where files may not be written.
. "$(dirname "$0")/common.sh"
chmod 711 "$work"

# Whether a script ends with status 5, without a transcript, and with one line on standard error that is like a pattern.
is_refused() {
  local pattern=$1
  shift
  "$@" < script > transcript 2> why
  [ $? = 5 ] && [ ! -s transcript ] && [ "$(wc -l < why)" = 1 ] && has why "$pattern"
}

# Runs the program as one who may not write to the folders of root.
run_as_nobody() {
  if [ "$(id -u)" = 0 ]; then
    setpriv --reuid=65534 --regid=65534 --clear-groups "$work/program" "${words[@]}" --folder "$1"
  else
    "$work/program" "${words[@]}" --folder "$1"
  fi
}

# Starts a run over a folder whose script is written to descriptor 3, and waits for what it says first.
begin() {
  rm -f lines
  mkfifo lines
  run_over "$1" < lines > first.transcript &
  program=$!
  exec 3<> lines
  puts_of 2 a >&3
  await '^a ok '
}

await() {
  local _
  for _ in $(seq 1 3000); do
    has first.transcript "$1" && return
    kill -0 "$program" 2> /dev/null || break
    sleep 0.01
  done
  return 1
}

# Ends the run that was begun, and answers its status.
finish() {
  echo end >&3
  exec 3>&-
  wait "$program"
}

check_permission() {
  mkdir sealed
  chmod 555 sealed
  check "a folder that may not be written is refused" is_refused permission run_as_nobody sealed/disks
  ends 0 closed
  chmod 444 closed/*
  cp -r closed closed.before
  check "disks that may not be written are refused" is_refused permission run_as_nobody closed
  check "disks that may not be written stay as they are" diff -r closed closed.before
}

# A device of 1 MB that another file fills.
check_full_device() {
  cat /dev/zero > device/filler 2> /dev/null
  check "a device without room is refused" is_refused room run_over device/disks
  check "nothing is left of a disk that the device has no room for" test -z "$(ls device/disks | grep n1p0)"
  rm device/filler
  check "the folder serves once the device has room" ends 0 device/disks
}

check_names() {
  trace_over up/down
  check "the name of a folder that was made is synced" is_between '^folder up/down$' '^sync up$' '^say a ok'
  check "the name of a folder that was made above it is synced" is_between '^folder up$' '^sync [.]$' '^say a ok'
  trace_over up/down
  check "the names of disks that were there are synced" is_between '^open up/down/n1p0$' '^sync up/down$' '^say '
}

puts_of 2 a > script

# Two runs at once: the second is refused, and takes nothing from the first. A run that is killed leaves the folder free.
check "a first run serves" begin shared
check "a second run at once is refused" is_refused 'in use|locked' run_over shared
puts_of 2 b >&3
check "the first one goes on" await '^b ok '
check "the first one ends well" finish
sed -n -E 's/^([ab]) ok (.*)/get \1 \2/p' first.transcript > script
check "a run behind it ends well" ends 0 shared
check "a run behind it gets what was put" test "$(grep -c ' ok 2 0000$' transcript)" = 2
check "a run serves" begin killed
{ kill -9 "$program" && wait "$program"; } 2> /dev/null
exec 3>&-
puts_of 2 a > script
check "a run that was killed leaves the folder free" ends 0 killed

# A disk that is gone while the program runs isn't made anew.
check "a run serves whose disk goes" begin gone
echo 'stop 1' >&3
await '^stop 1 ok'
rm gone/n1p0
echo 'restart 1' >&3
check "a disk that is gone is a fault" await '^restart 1 stuck fault$'
check "the run ends well" finish
check "it isn't made anew" test ! -e gone/n1p0

# A device without room for a new disk.
check "no room for a new disk is refused" is_refused room run_over small 100
check "nothing is left of a disk that didn't fit" test -z "$(ls small | grep n1p0)"
mkdir device
if mount -t tmpfs -o size=1m tmpfs device 2> /dev/null; then
  trap 'umount "$work/device"; rm -rf "$work"' EXIT
  check_full_device
else
  skip check_full_device
fi

# As root, all may be written, so another one is needed.
cp "$top/crates/ambry_lab/out/ambry_lab" program
if [ "$(id -u)" != 0 ] || setpriv --reuid=65534 --regid=65534 --clear-groups true 2> /dev/null; then
  check_permission
else
  skip check_permission
fi
with_trace check_names

sum_up refusals
