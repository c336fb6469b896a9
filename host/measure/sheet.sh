#!/usr/bin/env bash
# sheet.sh [linked]: the program sheet beside the 64 KiB: the peak stack of the whole program over 512 leaves, its
# memory for the record (6,143 bytes) and for a line (1,942) included, and its code and constants, as the kit compiles
# it. With `linked`, the call for a line beside all calls for C, in a copy of `tangle_c` that exports it too. Both print
# what it comes to, and what a text put together as a whole, 7,832 bytes, would come to. Ends with 1 if it takes more
# than 65,536 bytes, or if a line or a sheet is longer than is proved. C's functions that the code calls are outside.
. "$(dirname "$0")/../archive.sh"
compiler
limit=65536 record=6142 line=1942 whole=7832

# bytes KIND OBJECT: of code or of constants.
bytes() {
  local sum=0 kind size
  while read -r kind size; do if [ "$kind" = "$1" ]; then sum=$((sum + 16#$size)); fi; done < <(
    objdump -h "$2" | awk '
      $1 ~ /^[0-9]+$/ { size = $3 }
      /ALLOC/ { print (/CODE/ ? "code" : "constants"), size }')
  echo "$sum"
}

# shown WHAT STACK LEAST OTHER OBJECT: the stack, a line's memory included; how much of it is taken anyway; other memory;
# the code. Prints the parts and their sum.
shown() {
  local what=$1 stack=$2 least=$3 other=$4 code constants rest all as_a_whole
  code=$(bytes code "$5") constants=$(bytes constants "$5")
  [ "$code" -gt 0 ] && [ "$stack" -gt "$line" ] || { echo "nothing was measured"; exit 1; }
  rest=$((other + code + constants)) as_a_whole=$((stack + whole - line))
  all=$((rest + (stack > least ? stack : least)))
  as_a_whole=$((rest + (as_a_whole > least ? as_a_whole : least)))
  printf '%-56s %6d\n' "$what" "$stack" code "$code" constants "$constants" together "$all" \
    'together, if the text were put together as a whole' "$as_a_whole" limit "$limit" \
    'longest line, at most 1,942' "$longest" 'longest sheet, at most 7,832' "$written"
  [ "$all" -le "$limit" ] && [ "$longest" -le "$line" ] && [ "$written" -le "$whole" ] ||
    { echo "sheet: above its limit"; exit 1; }
}

if [ "${1:-}" != linked ]; then
  made sheet target/measure/made_sheet.o
  objcopy --redefine-sym main=sheet_main --redefine-sym read=sheet_read --redefine-sym write=sheet_write \
    target/measure/made_sheet.o target/measure/sheet.o
  gcc "${strict[@]}" -static -o target/measure/sheet host/measure/sheet.c target/measure/sheet.o "$kit/c/libos_c.a"
  read -r stack longest written < <(target/measure/sheet)
  shown 'sheet: stack, its record and its line included' "$stack" 0 0 target/measure/sheet.o
  exit
fi

bash host/measure/calls.sh > target/measure/calls.txt || { cat target/measure/calls.txt; exit 1; }
largest=$(sed -n 's/^most: \([0-9]*\) bytes of stack.*/\1/p' target/measure/calls.txt)
copy=$(mktemp -d)
trap 'rm -rf "$copy"' EXIT
left sheet || asked sheet check
left tangle_c || asked tangle_c check
cp -r crates/tangle_c/src "$copy"
cat >> "$copy/src/changing.rt" << 'END'

#[unsafe(no_mangle)]
pub extern "C" fn tangle_line(s: &mut [u8], k: usize, out: &mut [u8; 1942]) -> usize {
    calls_sheet::line(s, k, out)
}
END
archive=target/measure/liblinked.a
compiled "$copy" tangle_c "$archive" $(uses tangle_c) calls_sheet
gcc "${strict[@]}" -DLINKED -static -o target/measure/linked host/measure/sheet.c "$archive"
read -r stack longest written < <(target/measure/linked)
echo "beside all calls for C: the record, $record; the largest stack of the others, $largest"
shown 'a line of the sheet: stack, the line included' "$((stack + line))" "$largest" "$record" "$archive"
