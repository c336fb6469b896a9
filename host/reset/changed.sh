#!/usr/bin/env bash
# changed.sh [made]: changed copies of the calls' own module, stepped as the calls are (host/reset/test.sh, which has
# made the module then): what is wrong for an instant only must be found in the real code too. The module is taken as
# text, stores are added where it writes a record, and it is compiled as the kit compiles it. Unchanged
# it must pass. With layout bytes and the hold written through a wrong value every call must be found; with the other
# side's first row turned over and back, free, hands and pin must be found where that side is held. Prints a line for
# each; ends with 1 if one is not as it must be.
. "$(dirname "$0")/../archive.sh"
compiler

out=target/reset
mkdir -p "$out"
module=target/staticlib/libtangle.a.bc
[ "${1:-}" = made ] || archive tangle
module_text "$module" "$out/unchanged.ll"

# The name in the module of a generic function, which is there for one type.
instance() { # FUNCTION
  local names
  mapfile -t names < <(grep -o "^define [^@]*@\"$1::<[^\"]*" "$out/unchanged.ll" | cut -d '"' -f 2)
  [ "${#names[@]}" = 1 ] || { echo "changed: ${#names[@]} of $1 in the module" >&2; exit 1; }
  echo "${names[0]}"
}
layout_at=$(instance record_arrays::places::layout_at)
put_row_byte=$(instance record_arrays::rows::put_row_byte)

# The other side's first layout byte turned over and back. A record is lent as a pointer, %a0, and its length, %a1; a side
# is 0, the left, or 1.
turn_and_back='define internal void @turn_and_back(ptr %s, i16 %n, i8 %side) noinline {
  %at = call i64 @"'$layout_at'"(i16 %n, i8 %side)
  %p = getelementptr i8, ptr %s, i64 %at
  %x = load volatile i8, ptr %p
  %y = xor i8 %x, 1
  store volatile i8 %y, ptr %p
  store volatile i8 %x, ptr %p
  ret void
}'

# changed FUNCTION PATTERN LINES: standard input with these lines before the last line of that function that has the
# pattern; POINTER in them is what that line stores to.
changed() {
  name="@\"$1\"(" pattern=$2 lines=$3 awk '
    BEGIN { name = ENVIRON["name"]; pattern = ENVIRON["pattern"]; lines = ENVIRON["lines"] }
    { line[NR] = $0 }
    /^define / { inside = index($0, name) > 0 }
    inside && $0 ~ pattern { at = NR }
    END {
      if (!at) { print "changed: nothing to change in " name > "/dev/stderr"; exit 1 }
      if (match(line[at], /ptr %[a-z0-9]+, align/))
        gsub(/POINTER/, substr(line[at], RSTART + 4, RLENGTH - 11), lines)
      for (i = 1; i <= NR; i++) { if (i == at) print lines; print line[i] }
    }'
}

# Links the stepping program with a text's functions.
with_text() { # NAME
  text_object "$module" "$out/$1.ll" "$out/$1.o"
  objcopy --redefine-sym memcpy=reset_memcpy "$out/$1.o"
  gcc "${strict[@]}" -std=c11 -static -o "$out/$1" host/reset/stepped.c "$out/$1.o"
}

changed record_fields::copying::bytes_in '^  store i8 %' '  store volatile i8 7, ptr POINTER, align 1' \
  < "$out/unchanged.ll" |
  changed "$put_row_byte" '^  store i8 %' '  store volatile i8 7, ptr POINTER, align 1' |
  changed record::hold::set_hold '^  store i8 %' '  store volatile i8 0, ptr POINTER, align 1' > "$out/through.ll"
{
  changed record_arrays::putting_back::put_back '^  ret void' \
    $'  call void @turn_and_back(ptr %a0, i16 %a2, i8 0)\n  call void @turn_and_back(ptr %a0, i16 %a2, i8 1)' \
    < "$out/unchanged.ll" |
    changed "$put_row_byte" '^  ret void' \
      $'  %other = sub i8 1, %a3\n  call void @turn_and_back(ptr %a0, i16 %a2, i8 %other)'
  echo "$turn_and_back"
} > "$out/back.ll"

# found NAME WHAT CALL..: the changed copy is found, in each of these calls and for this.
found() {
  local name=$1 what=$2 call
  shift 2
  if "$out/$name" short > "$out/$name.txt"; then echo "changed: $name is not found"; exit 1; fi
  for call in "$@"; do
    grep -m 1 "^$call over .*: $what" "$out/$name.txt" || { echo "changed: $name is not found in $call"; exit 1; }
  done
}

compiling=()
for name in unchanged through back; do
  with_text "$name" &
  compiling+=($!)
done
for process in "${compiling[@]}"; do wait "$process"; done
"$out/unchanged" short > "$out/unchanged.txt" || { cat "$out/unchanged.txt"; exit 1; }
found through 'a layout byte above 3' free run hands pin
found through 'a hold neither old nor new' hold
found back 'a layout byte of a held side' free hands pin
echo "changed copies of the module: both found"
