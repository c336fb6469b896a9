#!/usr/bin/env bash
# The calls for C: builds the archive of crates/tangle_c, compiles test.c and viewer.c against it, runs both. Ends with
# 0 and one line that says so only if every check passed.
. "$(dirname "$0")/../archive.sh"
compiler

out=target/viewer
mkdir -p "$out"
archive tangle
for program in test viewer; do
  linked "$out/$program" target/staticlib/libtangle.a -std=c11 -pedantic "host/viewer/$program.c"
done

"$out/test"

# Case 2's parts.
leaves='\0\4'
left='\0\1\0\2\0\3\0\5\0\4\0\6'
right='\0\1\0\2\0\3\0\4\0\5\0\6'
links='\0\1\0\2\0\3\0\4'
layouts='\0\0\0\0\0\0'

# Runs the viewer on the record of these parts with a hold letter, entries of a hand list after it. Its output is
# compared with a file, its status with the one that is expected.
shows() {
  local letter=$1 expected=$2 status=$3 got=0
  shift 3
  printf 'TGP\0\1%s%b%b%b%b%b' "$letter" "$leaves" "$left" "$right" "$links" "$layouts" |
    "$out/viewer" "$@" > "$out/$expected" || got=$?
  diff "host/viewer/$expected" "$out/$expected" || { echo "viewer: $expected differs"; exit 1; }
  [ "$got" = "$status" ] || { echo "viewer: $expected ends with $got, not $status"; exit 1; }
}
shows N case2.txt 0 1:2 1:3
shows L held.txt 1 1:2
shows X refused.txt 1
shows N row4.txt 1 2:1 1:4
layouts='\0\0\2\0\0\0' shows N pinned.txt 1 1:2 1:3
left='\0\1\0\2\0\3\0\5\0\4\0\3' shows N left_row.txt 1
right='\0\1\0\2\0\6\0\4\0\5\0\5' shows N right_row.txt 1 1:1
leaves='\0\1' left='' right='' links='\0\1' layouts='' shows N one_leaf.txt 0

echo "viewer: all passed"
