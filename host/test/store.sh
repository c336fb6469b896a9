#!/usr/bin/env bash
# Makes the calls that rt runs desk on, and their answers by the peer: crates/desk/stdin and stdout. Of 20,000 calls by
# seed 7, which begin with both sides of every limit, each line once:
# - of up to 260 bytes the first 7,030. These are all fixed ones but those that stand last, since they say again what
#   others say (host/test/desk.sh has all of them under all calls). So of these some are here: records with one fault
#   under the check and, in turn, under a quarter of the other calls, so that each call meets each number from 1 to 10;
#   records with several faults under the check, and a quarter of them under some other calls; layout bytes of 3 and 4
#   in two of four rows under every call, and in the others under the check and packing; of the letters for the hold
#   and of the bytes after a text's first, those next to a good one and the ends; of two proposed orders that are both
#   bad, each beside itself; and a side that is far off, 256 or more, where nothing is held and no record is faulty,
#   since sides 0 and 3 stand beside each. None is at random.
# - of up to 5,000 bytes the first three hand lists, of 1,024 and of 1,025 entries; seventeen texts read, of lengths and
#   leaf numbers of hundreds of digits and with 511 and 512 groups open; seven written, of 9 to 99 leaves; five merge
#   tables read over 512 and 513 leaves, refused for their first or last entry or their size; twelve entanglements in
#   thousandths, of 15 to 182 leaves, exact squares and the first 0 of a record that is not straight among them; nine
#   checks of 65 leaves with one link wrong; three orders taken in, of 65 and of 64 leaves; and one of each other call;
# - of the longer ones, over 512 leaves, three checks and a packing, a bad row at either end among them; four texts
#   read, with 511 groups open and of 512 and 513 leaves; three orders taken in, one that is least, one that goes
#   against the last pinned row and one that is none; two merge tables read; two entanglements in thousandths, the
#   worst, and one of 449 leaves where floats come out one too low; and the first of each other call: what is pinned,
#   what is freed and what is taken in has every third row pinned, and the run has none.
# desk reads 1,048,576 bytes; ends with 1 if the calls are longer.
. "$(dirname "$0")/../tools.sh"
peer_cargo build
"$peer" calls 7 20000 | LC_ALL=C awk '
  BEGIN {
    middle["check"] = 9; middle["hands"] = 3; middle["newick_read"] = 17; middle["newick_write"] = 7
    middle["merge_read"] = 5; middle["thousandths"] = 12; middle["take_in"] = 3
    long["check"] = 3; long["newick_read"] = 4; long["take_in"] = 3; long["merge_read"] = 2; long["thousandths"] = 2
  }
  seen[$0]++ { next }
  length($0) <= 260 { if (++short <= 7030) print; next }
  $1 !~ /^[a-z_]+$/ { next }
  length($0) <= 5000 { if (++taken[$1] <= ($1 in middle ? middle[$1] : 1)) print; next }
  ++longer[$1] <= ($1 in long ? long[$1] : 1)' > crates/desk/stdin
"$peer" answers < crates/desk/stdin > crates/desk/stdout
wc -lc crates/desk/stdin crates/desk/stdout
[ "$(stat -c %s crates/desk/stdin)" -le 1048576 ] || { echo "crates/desk/stdin is too long"; exit 1; }
