#!/usr/bin/env bash
# Code and constant data of an archive's functions, and whether they fit 64 KiB together with the record and the
# largest stack: size.sh [NAME], the library whose archive is measured, `tangle` if none is named. Prints the bytes of
# each part; ends with 1 if they are more than 65,536 together. The stack is the most that host/measure/calls.sh finds
# for any call, reading a text among them: the device has its record also while it reads one. C's functions that the
# code calls (it names them) are outside, and so is the caller's own code and memory, lent texts and buffers included.
. "$(dirname "$0")/../archive.sh"
compiler
name=${1:-tangle}
limit=65536 record=6142

bash host/measure/calls.sh > target/measure/calls.txt || { cat target/measure/calls.txt; exit 1; }
[ "$name" = tangle ] || archive "$name" # calls.sh made that one
stack=$(sed -n 's/^most: \([0-9]*\) bytes of stack.*/\1/p' target/measure/calls.txt)

# The sections that a linked program has in memory: code, constants, and data that changes, of which there is none.
objdump -h "target/staticlib/lib$name.a" | awk '
  $1 ~ /^[0-9]+$/ { section = $2; size = $3 }
  /ALLOC/ { print (/CODE/ ? "code" : /READONLY/ ? "constants" : "data"), size, section }' > target/measure/sections
bytes() { # KIND: the sum of its sections
  local sum=0 kind size
  while read -r kind size _; do if [ "$kind" = "$1" ]; then sum=$((sum + 16#$size)); fi; done < target/measure/sections
  echo "$sum"
}
code=$(bytes code) constants=$(bytes constants) data=$(bytes data)
[ "$code" -gt 0 ] && [ "$stack" -gt 0 ] || { echo "nothing was measured"; exit 1; }

all=$((record + stack + code + constants + data))
printf '%-28s %6d\n' record "$record" 'stack, the largest call' "$stack" "code of lib$name.a" "$code" \
  constants "$constants" 'data that changes' "$data" together "$all" limit "$limit"
echo "outside: $(nm -u "target/staticlib/lib$name.a" | awk '$1 == "U" { printf "%s ", $2 }')"
[ "$all" -le "$limit" ] || { echo "above the limit"; exit 1; }
