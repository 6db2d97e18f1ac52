#!/usr/bin/env bash
# What the built program does to real files: the order of its calls of the system, where `strace` is there to tell them, and runs
# whose files or output fail. A limit on the size of files stands for a device without room: a write past it fails as such a one does.
. "$(dirname "$0")/common.sh"

# The calls between two lines of the transcript.
between() {
  sed -n "/^say $1\$/,/^say $2/ { /^say /!p }" calls
}

# A put is a write of the record behind its first byte, a sync, a write of that byte, and a sync.
is_put() {
  between "$1" "$2" | awk '{ kind[NR] = $1; length_of[NR] = $3; at[NR] = $4 }
    END { exit !(NR == 4 && kind[1] == "write" && kind[2] == "sync" && kind[3] == "write" && kind[4] == "sync" \
      && length_of[3] == 1 && at[1] == at[3] + 1) }'
}

is_one_read() {
  [ "$(between "$1" "$2" | cut -d' ' -f1)" = read ]
}

is_only() {
  ! between "$2" "$3" | grep -q -v -E "$1"
}

check_calls() {
  trace_over new
  check "a new disk is synced once all of it is written, and then gets its name" is_between '^write new/n1p0[.]new ' '^sync new/n1p0[.]new' '^rename new/n1p0[.]new'
  check "the folder is synced behind that and before a put is acknowledged" is_between '^rename new/n1p0[.]new' '^sync new$' '^say a ok'
  check "a put is four calls of the disk" is_put 'a begun' 'a ok'
  check "a further put is four calls of the disk" is_put 'b begun' 'b ok'
  check "a get is one read" is_one_read 'c begun' 'c ok'
  check "a stop writes nothing" is_only '^open|^sync' 'c ok 2 0000' 'stop 1 ok'
  check "a restart of a log that was closed well writes nothing" is_only '^open|^sync|^read' 'stop 1 ok' 'restart 1 ok'
  sed -n '/^say stop 1 ok$/,$p' calls > later && mv later calls
  check "what an opening reads it has synced before" is_between '^open new/n1p0$' '^sync new/n1p0$' '^read new/n1p0 '
  check "a get behind a restart is one read" is_one_read 'd begun' 'd ok'
}

{
  puts_of 2 a b
  printf 'get c $a\nwait\nstop 1\nrestart 1\nget d $b\n'
} > script
check "a run over a new folder ends well" ends 0 plain
with_trace check_calls

# A device without room for a new disk: nothing has the disk's name, and the folder serves once there is room.
puts_of 1000 a > script
check "a new disk that doesn't fit is status 5" ends 5 small 100 2> why
check "standard error says why" has why room
check "nothing is told then" test ! -s transcript
check "no shorter disk is left" test ! -e small/n1p0
check "the folder serves once there is room" ends 0 small

# A device that has no more room at the third put: that one and those behind it fail, and a later run gets the first two.
: > script
ends 0 filled
puts_of 10000 a b c d > script
check "the script ends well" ends 0 filled 32
check "the first two are acknowledged" has transcript '^b ok '
check "the third fails" has transcript '^c unavailable .* 1:fault$'
check "the log takes no more" has transcript '^d unavailable .* 1:down$'
sed -n -E 's/^([ab]) ok (.*)/get \1 \2/p' transcript > script
check "a later run ends well" ends 0 filled
check "a later run gets the first two" test "$(grep -c ' ok 10000 0*$' transcript)" = 2

# An output or an input that fails.
puts_of 1 a > script
run_over outputs < script > /dev/full
check "an output that fails is status 4" test $? = 4
run_over inputs < . > transcript
check "an input that fails is status 3" test $? = 3

sum_up files
