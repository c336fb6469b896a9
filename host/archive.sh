# For the scripts that link C with the calls: how an archive is made and how C is compiled.
. "$(dirname "${BASH_SOURCE[0]}")/built.sh"

# archive NAME: the archive of the calls that the crate NAME_c exports, target/staticlib/libNAME.a, and beside it the
# LLVM module that it is compiled from, libNAME.a.bc.
archive() {
  made "$1_c" "target/staticlib/lib$1.a"
}

# How every C file here is compiled: a number that is cut down or changes its sign without a cast is an error.
strict=(-O2 -Wall -Wextra -Wconversion -Wsign-conversion -Werror)

# Links C files with an archive; statically, so that no call looks a function of C's up on the measured stack.
linked() { # PROGRAM ARCHIVE FILE..
  local program=$1 archive=$2
  shift 2
  gcc "${strict[@]}" -static -o "$program" "$@" "$archive"
}

# A module as text.
module_text() { # MODULE TEXT
  "$toolchain/bin/clang" --no-default-config --target=x86_64-unknown-linux-gnu -S -emit-llvm -O3 \
    -Xclang -disable-llvm-passes -x ir "$1" -o "$2"
}

# A changed module's text compiled as the kit compiled the module, with the words that were kept beside that.
text_object() { # MODULE TEXT OBJECT
  local words
  mapfile -t words < "${1%.bc}.words"
  words=("${words[@]/#module.bc/$2}")
  words=("${words[@]/#module.o/$3}")
  "$toolchain/bin/clang" "${words[@]}" -Wno-override-module
}

# An archive's functions as one object, its only member.
archive_object() { # ARCHIVE OBJECT
  ar p "$1" > "$2"
}
