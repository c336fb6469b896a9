#!/usr/bin/env bash
# frames.sh [WORD..]: the stack that each function of the calls (crates/tangle) takes for itself, when none is compiled
# into its caller: bytes and name, of the functions whose names have one of the words, or of all. What a call takes at
# its deepest is measured by host/measure/calls.sh; this tells what for.
. "$(dirname "$0")/../archive.sh"
needs llvm-readelf -- llvm

archive tangle
"$toolchain/bin/clang" --no-default-config --target=x86_64-unknown-linux-gnu -O3 -mllvm -inline-threshold=-100000 \
  -fstack-size-section -c -x ir target/staticlib/libtangle.a.bc -o target/measure/frames.o
llvm-readelf --stack-sizes target/measure/frames.o |
  awk -v words="$*" '
    BEGIN { split(words, word, " ") }
    $1 !~ /^[0-9]+$/ { next }
    words == "" { print $1, $2; shown++; next }
    { for (i in word) if (index($2, word[i])) { print $1, $2; shown++; next } }
    END { exit shown == 0 }' | sort -n
