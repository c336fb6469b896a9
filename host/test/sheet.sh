#!/usr/bin/env bash
# Compares sheet with the peer's sheet: records of all shapes and sizes, each hold, some rows pinned and all of them,
# the first or the last row of a side bad, cut short, too long, empty, damaged, and given in pieces; and both sides of
# limits of a thousandth and of a layout byte. Then input that can't be read and output that can't be written, a closed
# pipe among it. Ends with 1 at the first difference.
. "$(dirname "$0")/../programs.sh"
build
records=0

# same FILE: sheet's and the peer's text for the bytes in FILE.
same() {
  "$peer" sheet < "$1" > "$out/sheet.want"
  program sheet < "$1" > "$out/sheet.got"
  cmp "$out/sheet.want" "$out/sheet.got" || { echo "sheet and the peer differ on $1"; cp "$1" "$out/sheet.differs"; exit 1; }
  records=$((records + 1))
}

# with HOLD: the record in $file with another hold letter.
with() {
  { head -c 5 "$file"; printf '%s' "$1"; tail -c +7 "$file"; } > "$file.hold"
}

# ends BYTE: the record in $file with another last layout byte.
ends() {
  { head -c -1 "$file"; printf '%b' "$1"; } > "$file.byte"
}

# bad AT REFUSAL: the record in $file with a 0 as the upper child of the row at byte AT; what both print of it.
bad() {
  { head -c "$1" "$file"; printf '\0\0'; tail -c "+$(($1 + 3))" "$file"; } > "$file.bad"
  same "$file.bad"
  [ "$(cat "$out/sheet.got")" = "REFUSED $2" ] || { echo "not refused $2: $file.bad"; exit 1; }
}

file=$out/sheet.record
for n in 1 2 3 4 8 64 511 512; do
  for shape in balanced caterpillar random; do
    "$peer" record "$shape" "$n" "$n" > "$file"
    same "$file"
    for hold in L R B M; do with "$hold"; same "$file.hold"; done
    for step in 1 2 3; do "$peer" pinned "$shape" "$n" "$n" "$step" > "$file.pinned"; same "$file.pinned"; done
    head -c $((12 * n - 3)) "$file" > "$file.short"; same "$file.short"
    { cat "$file"; printf 'x'; } > "$file.long"; same "$file.long"
    for row in 1 $((n - 1)); do
      [ "$n" -gt 1 ] || continue
      bad $((4 * row + 4)) "7 $row"
      bad $((4 * n + 4 * row)) "8 $row"
    done
    [ "$n" -gt 1 ] || continue
    ends '\3'; same "$file.byte"
    ends '\4'; same "$file.byte"
    [ "$(cat "$out/sheet.got")" = "REFUSED 10" ] || { echo "not refused 10: $file.byte"; exit 1; }
  done
done
cp crates/sheet/stdin "$file"
for bytes in 0 1 7 8 9 45; do head -c "$bytes" "$file" > "$file.short"; same "$file.short"; done
head -c 46 /dev/zero > "$file.zero"; same "$file.zero"
"$peer" record random 512 1 > "$file"
{ cat "$file" "$file"; } > "$file.long"; same "$file.long"

# Leaves, D, W and the entanglement in thousandths: the four numbers are given here, and must be those printed.
while read -r n d w k; do
  "$peer" displaced "$n" "$d" "$n" > "$file"
  same "$file"
  grep -qx "E $d $w $k" "$out/sheet.got" || { echo "not E $d $w $k: $file"; exit 1; }
done <<'END'
1 0 0 0
2 0 2 0
2 2 2 1000
3 2 8 500
4 18 20 948
5 8 40 447
5 10 40 500
15 1118 1120 999
24 3724 4600 899
24 3726 4600 900
181 2 1976520 1
182 2 2009462 0
449 25816600 30172800 924
449 25816602 30172800 925
512 0 44739072 0
512 44 44739072 0
512 46 44739072 1
512 44739070 44739072 999
512 44739072 44739072 1000
END

# The example with its left root pinned as given: the lines are given here, and must be those printed.
{ head -c 42 crates/sheet/stdin; printf '\2'; tail -c +44 crates/sheet/stdin; } > "$file"
same "$file"
cmp "$out/sheet.got" - <<'END'
TGP 1 N 4
L 4 3 1 2
R 1 2 3 4
X 5
E 18 20 948
T 3 S 2
L 4 1 2 3
R 1 2 4 3
END

# A pipe gives the input in pieces.
cp crates/sheet/stdin "$file"
{ head -c 5 "$file"; sleep 0.2; tail -c +6 "$file" | head -c 20; sleep 0.2; tail -c +26 "$file"; } | program sheet > "$out/sheet.got"
cmp "$out/sheet.got" crates/sheet/stdout
# Where it can't read or can't write, host/sheet.sh says so and ends with 1.
fails() { # WHAT COMMAND..
  local what=$1 status=0
  shift
  "$@" 2> "$out/sheet.said" || status=$?
  [ "$status" -eq 1 ] || { echo "sheet, $what: ends with $status, not 1"; exit 1; }
  grep -qx "sheet: standard $what" "$out/sheet.said" || { echo "sheet, $what: says:"; cat "$out/sheet.said"; exit 1; }
}
unread() { bash host/sheet.sh - < /; } # a folder
closed() { bash host/sheet.sh - <&-; }
full() { bash host/sheet.sh > /dev/full; }
nowhere() { bash host/sheet.sh >&-; }
unheard() { { sleep 0.3; bash host/sheet.sh; } | true; return "${PIPESTATUS[0]}"; } # a closed pipe
fails "input can't be read" unread
fails "input can't be read" closed
fails "output can't be written" full
fails "output can't be written" nowhere
fails "output can't be written" unheard
echo "sheet: $records inputs printed as the peer does; reading and writing that fail are told"
