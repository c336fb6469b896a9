#!/usr/bin/env bash
# test.sh [SEED]: a reset at any instant, and memory that can't be touched. `stepped` steps the calls that change a
# record instruction by instruction and looks at the record whenever a byte of it has changed; host/reset/changed.sh
# does so with changed copies of the calls; `fenced` makes all twenty calls with every lent buffer right before and
# right after memory that can't be touched, on damaged records by a seed, 1 if none is given. Both programs also try
# wrong versions of the calls, which must be found. Prints what was looked at, and the seconds; ends with 1 if anything
# is wrong.
. "$(dirname "$0")/../archive.sh"
compiler

out=target/reset
mkdir -p "$out"
archive tangle
started=$SECONDS
archive_object target/staticlib/libtangle.a "$out/calls.o"

# The calls put layouts back by C's memcpy, so that the order of these stores is the C library's. `stepped` has one of
# its own in its place, which copies in several ways. Both are linked statically: looking a function of C's up would be
# stepped too.
objcopy --redefine-sym memcpy=reset_memcpy "$out/calls.o" "$out/stepped.o"
gcc "${strict[@]}" -std=c11 -static -o "$out/stepped" host/reset/stepped.c "$out/stepped.o"
gcc "${strict[@]}" -std=c11 -static -o "$out/fenced" host/reset/fenced.c "$out/calls.o"

"$out/stepped"
bash host/reset/changed.sh made
"$out/fenced" "${1:-1}"
echo "reset: all passed, $((SECONDS - started)) s"
