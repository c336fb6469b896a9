#!/usr/bin/env bash
# desk.sh [SEED [COUNT]]: makes COUNT calls by the seed, has desk and the peer answer them, and compares; by default
# 20,000 calls by seed 1. Then the limits of the input, one byte to either side. Ends with 1 at the first difference.
. "$(dirname "$0")/../programs.sh"
build
seed=${1:-1} count=${2:-20000}

# compare FILE: desk's answers and the peer's to the calls in FILE, which has 1 MiB at most.
compare() {
  timeout 600 "$peer" answers < "$1" > "$1.want"
  timeout 600 bash -c '. host/programs.sh; program desk' < "$1" > "$1.got"
  cmp "$1.want" "$1.got" || { echo "desk and the peer differ on $1"; exit 1; }
}

rm -f "$out"/calls.*
"$peer" calls "$seed" "$count" > "$out/calls.all"
split -C 1000000 "$out/calls.all" "$out/calls.part."
for part in "$out"/calls.part.??; do compare "$part"; done
answered=$(cat "$out"/calls.part.??.got | wc -l)
[ "$answered" -eq "$count" ] || { echo "$answered answers to $count calls"; exit 1; }

# Calls on records that say n = 512: byte 6 is 2 and byte 7 is 0.
largest=$(LC_ALL=C grep -a -c '^[a-z_]* 5447500001[0-9a-f][0-9a-f]0200' "$out/calls.all" || true)
if [ "$count" -ge 20000 ] && [ "$largest" -lt 200 ]; then
  echo "only $largest calls with n = 512"
  exit 1
fi

# limit BYTES LAST ANSWERS: BYTES bytes of lines, the last of them as LAST says; how many lines are answered.
limit() {
  local file="$out/calls.limit"
  # 349,525 lines of two bytes and a line feed make 1,048,575 bytes.
  awk 'BEGIN { for (i = 0; i < 349525; i++) print "xx" }' > "$file"
  printf '%b' "$2" >> "$file"
  [ "$(stat -c %s "$file")" -eq "$1" ] || { echo "$file has another size"; exit 1; }
  "$peer" answers < "$file" > "$file.want"
  program desk < "$file" > "$file.got"
  cmp "$file.want" "$file.got" || { echo "desk and the peer differ on $file"; exit 1; }
  [ "$(wc -l < "$file.got")" -eq "$3" ] || { echo "$file: not $3 answers"; exit 1; }
}
limit 1048575 '' 349525
limit 1048576 'x' 349526
limit 1048576 '\n' 349526
limit 1048577 'x\n' 349525
limit 1048577 'xy' 349525
limit 1048577 '\nx' 349526
echo "desk: $count calls by seed $seed, $largest of them with n = 512, answered as the peer does"
