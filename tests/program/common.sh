# What each check of the program begins with: the functions that compare what the program did with
# what is wanted, and the files that several checks use. A check is given the program as its first
# argument, or else takes bin/kutsvame.
set -u
top=$(cd "$(dirname "${BASH_SOURCE[0]}")/../.." && pwd)
data=$top/crates/kutsvame/data
program=${1:-$top/bin/kutsvame}
room=$(mktemp -d)
trap 'rm -rf "$room"' EXIT
# standard output and standard error of the last call, the script that it was given, and a folder
# for what it writes
out=$room/out err=$room/err script=$room/script made=$room/made
mkdir "$made" && : >"$script" && cd "$data" || exit 1
failed=0

# expect STATUS ARGUMENT..: calls the program, with the script on its standard input. Standard input
# has what is wanted on standard output; what came on standard error is kept
expect() {
  local status=$1 got=0
  shift
  "$program" "$@" <"$script" >"$out" 2>"$err" || got=$?
  if [ "$got" != "$status" ]; then
    echo "kutsvame $*: status $got, not $status"
    failed=1
  fi
  if ! diff - "$out"; then
    echo "kutsvame $*: standard output differs"
    failed=1
  fi
}

# expect_within KILOBYTES STATUS ARGUMENT..: as expect, with no more address space than that
expect_within() {
  local most=$1 whole=$program
  shift
  printf '#!/bin/sh\nulimit -v %s || exit 99\nexec "%s" "$@"\n' "$most" "$whole" >"$room/within"
  chmod +x "$room/within"
  program=$room/within
  expect "$@"
  program=$whole
}

# word NUMBER: the four bytes of a number, the highest first
word() {
  printf "$(printf '\\x%02x' $(($1 >> 24 & 255)) $(($1 >> 16 & 255)) $(($1 >> 8 & 255)) $(($1 & 255)))"
}

# with_section FILE: what a file of version 6 has with these bytes as its section of blocks: the
# header of file M, with the extents and S that follow, the section, and a cell of zeros
with_section() {
  local size start
  size=$(wc -c <"$1") || exit 1
  start=$((104 + size))
  head -c 6 "$data/m.cs"
  word $((start - 10))
  tail -c +11 "$data/m.cs" | head -c 2
  word $((start - 16))
  tail -c +17 "$data/m.cs" | head -c 4
  word $((start - 24))
  tail -c +25 "$data/m.cs" | head -c 44
  word $((start - 72))
  tail -c +73 "$data/m.cs" | head -c 24
  word $((start - 100))
  word "$size"
  cat "$1"
  head -c 36 /dev/zero
}

# run_script STATUS LINE..: calls run with a script of these lines
run_script() {
  local status=$1
  shift
  printf '%s\n' "$@" >"$script"
  expect "$status" run "$script"
}

# complains TEXT: what came on standard error begins with TEXT; an empty TEXT asks for nothing there
complains() {
  if [ "$(head -n 1 "$err")" != "$1" ]; then
    echo "standard error begins with '$(head -n 1 "$err")', not with '$1'"
    failed=1
  fi
}

# says TEXT: TEXT is all that came on standard error
says() {
  if [ "$(cat "$err")" != "$1" ]; then
    echo "standard error is '$(cat "$err")', not '$1'"
    failed=1
  fi
}

# same FILE OTHER: the two have the same bytes
same() {
  if ! cmp "$1" "$2"; then
    failed=1
  fi
}

# absent FILE: no file has that name, nor one that begins with it
absent() {
  if compgen -G "$1*" >/dev/null; then
    echo "$1 is there"
    failed=1
  fi
}

# copy_data: goes to a copy of the sample files, in which a check may write
copy_data() {
  mkdir "$made/data" && cp -r "$data/." "$made/data" && cd "$made/data" || exit 1
}

# write_early FILE: a file of version 1. It has no sizes of its own: 31 cells of 512 bins, whose
# 571392 bytes follow the header
write_early() {
  { printf '\0\1\0\0\0\7\0\0\0\0' && head -c 571392 /dev/zero; } >"$1"
}

# file M as draft takes it: version, kind, bins and ranges, and the values of its fields, which are
# those that the sample file was given
m_values='0 1212240450 0 0 0 0 0 0 0 1 0 0 0 0 0 0'
read -ra m <<<"6 1 1 1 $m_values"

# what the program says of an argument that is to be bytes
no_bytes='no bytes: neither x and digits, nor a text in quotes, nor @ and a path'
