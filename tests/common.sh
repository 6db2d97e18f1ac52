# What the checks of the built program over real files share. They count what they check, and run in a folder of their own.
set -u
top=$(cd "$(dirname "$0")/.." && pwd) || exit 1
work=$(mktemp -d) || exit 1
trap 'rm -rf "$work"' EXIT
cd "$work" || exit 1
checks=0
failed=0
skipped=0
words=(run --nodes 1 --partitions 1 --segment 66736 --segments 2 --ids 1)

# Counts a check, and says which one failed.
check() {
  local what=$1
  shift
  checks=$((checks + 1))
  "$@" || { failed=$((failed + 1)) && echo "not so: $what"; }
}

# A put of so many bytes, each waited for, for each of these tags.
puts_of() {
  local count=$1 tag
  shift
  for tag in "$@"; do
    printf "put $tag hex %0$((2 * count))d\nwait\n" 0
  done
}

# Runs the program over a folder, with this limit of KB on its files, or none.
run_over() {
  (trap '' XFSZ && ulimit -f "${2:-unlimited}" && exec "$top/ambry_lab" "${words[@]}" --folder "$1")
}

# Whether a script ends with a status over a folder, with this limit of KB on files.
ends() {
  run_over "$2" "${3:-}" < script > transcript
  [ $? = "$1" ]
}

has() {
  grep -q -E "$2" "$1"
}

# Traces a run of the script over a folder. The launcher has made the program before, so that the trace is the program's alone.
trace_over() {
  strace -y -s 4000 -o trace -e trace=mkdir,openat,rename,pwrite64,pread64,fsync,fdatasync,write "$top/crates/ambry_lab/out/ambry_lab" "${words[@]}" --folder "$1" < script > transcript
  calls_of trace > calls
}

# Counts what a function of checks would have checked.
skip() {
  skipped=$((skipped + $(declare -f "$1" | grep -c ' check "')))
}

# Runs a function of checks if `strace` is there.
with_trace() {
  if strace -o trace true 2> /dev/null; then
    "$1"
  else
    skip "$1"
  fi
}

# The calls of a traced run, one a line: `make F`, `open F`, `rename F`, `folder F` (made), `write F LENGTH AT`, `read F LENGTH AT`, `sync F`,
# and `say LINE` for each line of the transcript, with the names of files as the program has them.
calls_of() {
  sed -n -E \
    -e "s#<$work>#<.>#; s#<$work/#<#; /= -1 /d" \
    -e 's#^mkdir\("([^"]*)".*#folder \1#p' \
    -e 's#^openat\([^,]*, "([^/"][^"]*)", [A-Z_|]*O_CREAT.*#make \1#p' \
    -e 's#^openat\([^,]*, "([^/"][^"]*)", [^)]*\).*#open \1#p' \
    -e 's#^rename\("([^"]*)".*#rename \1#p' \
    -e 's#^(pwrite64|pread64)\([0-9]+<([^>]*)>.*, ([0-9]+), ([0-9]+)\) = [0-9]+$#\1 \2 \3 \4#; s#^pwrite64#write#p; s#^pread64 ([^/])#read \1#p' \
    -e 's#^(fsync|fdatasync)\([0-9]+<([^>]*)>\).*#sync \2#p' \
    -e 's#^write\(1<[^>]*>, "(.*)", [0-9]+\) = [0-9]+$#\1#; t lines; d' \
    -e ':lines s#^([^\\]*)\\n#say \1\n#; T; P; s#^[^\n]*\n##; t lines' "$1"
}

# Whether a call like the second pattern stands behind the last one like the first pattern and before the first one like the third.
is_between() {
  awk -v first="$1" -v second="$2" -v third="$3" '$0 ~ third { ended = 1; exit } $0 ~ first { begun = 1; found = 0 } begun && $0 ~ second { found = 1 }
    END { exit !(found && ended) }' calls
}

# The last line of such checks, and the status.
sum_up() {
  echo "$1: $checks checks, of which $failed failed; $skipped more were skipped, since the machine lacks what they need"
  [ "$failed" = 0 ]
}
