#!/usr/bin/env bash
# speed.sh [TIMES]: speed of check, count, free, take_in and run beside Rust (host/peer), on one machine and the same
# records: balanced, caterpillar and random trees of 64 and of 512 leaves, and for the check also straight links, from 1
# to n. The order taken in is the one that freeing leaves the left, so that it takes what is least. Prints nanoseconds
# per call of both, and the firmware's divided by Rust's: 1.0 or less is the aim; and last, for each record, what
# take_in takes beside free. Ends with 1 if an answer differs, or if a call takes more than TIMES Rust's time, 2 if it
# is not given.
. "$(dirname "$0")/../archive.sh"
work=target/measure/speed.d
times=${1:-2}
mkdir -p "$work"

compiler
peer_cargo build
archive tangle
archive_object target/staticlib/libtangle.a "$work/calls.o"
gcc "${strict[@]}" -o "$work/speed" host/measure/speed.c "$work/calls.o"

# The left order that freeing the left of a record leaves, and the room that 512 leaves want.
zeros=$(printf '0,%.0s' {1..512})
freed_order() { # HEX
  local freed order
  read -r _ _ _ freed < <(echo "free $1 1" | "$peer" answers)
  read -r _ order < <(echo "order $freed 1 ${zeros%,}" | "$peer" answers)
  echo "$order"
}

line_for() { # CALL FILE: desk's line for the same call
  local hex
  hex=$(od -An -v -tx1 "$2" | tr -d ' \n')
  case $1 in
    check) echo "check $hex" ;;
    count) echo "count $hex" ;;
    free) echo "free $hex 1" ;;
    take_in) echo "take_in $hex 1 $(freed_order "$hex") ${zeros//,/0}" ;;
    run) echo "run $hex 130818" ;;
  esac
}

# measure CALL FILE: sets ours and theirs, and ends with 1 if an answer differs.
measure() {
  local answer expected
  { read -r answer; read -r ours; } < <("$work/speed" "$1" "$2")
  theirs=$("$peer" speed "$1" < "$2")
  expected=$(line_for "$1" "$2" | "$peer" answers)
  [ "${expected#"$answer"}" != "$expected" ] || { echo "$1, $2: answered $answer, not $expected"; exit 1; }
}

printf '%-7s %-12s %6s %12s %12s %7s\n' call trees leaves 'firmware ns' 'Rust ns' ratio
above=0
declare -A took
for call in check count free take_in run; do
  shapes=(balanced caterpillar random)
  if [ "$call" = check ]; then shapes+=(straight); fi
  for shape in "${shapes[@]}"; do
    for leaves in 64 512; do
      file=$work/$shape.$leaves
      "$peer" record "$shape" "$leaves" 1 > "$file"
      # Other work on the machine can slow one of the two: a line above the limit is measured again, twice at most.
      for _ in 1 2 3; do
        measure "$call" "$file"
        slow=$(awk -v ours="$ours" -v theirs="$theirs" -v times="$times" 'BEGIN { print (ours > times * theirs) }')
        [ "$slow" -eq 1 ] || break
      done
      awk -v call="$call" -v shape="$shape" -v leaves="$leaves" -v ours="$ours" -v theirs="$theirs" 'BEGIN {
        printf "%-7s %-12s %6d %12d %12d %7.2f\n", call, shape, leaves, ours, theirs, ours / theirs
      }'
      took[$call.$shape.$leaves]=$ours
      above=$((above + slow))
    done
  done
done
printf '%-7s %-12s %6s %12s %12s %7s\n' beside trees leaves 'take_in ns' 'free ns' ratio
for shape in balanced caterpillar random; do
  for leaves in 64 512; do
    awk -v shape="$shape" -v leaves="$leaves" -v one="${took[take_in.$shape.$leaves]}" \
      -v other="${took[free.$shape.$leaves]}" 'BEGIN {
        printf "%-7s %-12s %6d %12d %12d %7.2f\n", "free", shape, leaves, one, other, one / other
      }'
  done
done
[ "$above" -eq 0 ] || { echo "$above above $times times Rust"; exit 1; }
