#!/usr/bin/env bash
# Peak stack of every call (crates/tangle) over 512 leaves, arrays included: trees deep on the upper or the lower side,
# balanced and random ones, on either side of the table, with layouts of 0, of 1, mixed (2) and mixed with pins (3); and
# records that are refused for their last row, which is looked for. Orders taken in: a side's present order, the one
# that freeing leaves, and orders that are refused, 16, 23 and for their room. Texts read: 511 groups open, 512 of them,
# balanced ones, a megabyte of lengths, and texts that are refused. Merge tables read: of the same trees, and refused
# for an entry that names nothing or stands twice. Prints for each call the record, the order, the text or the table
# that takes most, and the bytes together with the record's own 6,142. Ends with 1 if a call takes more stack than its
# limit (an order, reading a text, and every other call have one each), or if a call refuses or answers otherwise than
# expected.
. "$(dirname "$0")/../archive.sh"
compiler
record=6142 order_limit=8192 reading_limit=20480 limit=16384

archive tangle
linked target/measure/calls target/staticlib/libtangle.a host/measure/calls.c
target/measure/calls > target/measure/calls.out

awk -v limit="$limit" -v order_limit="$order_limit" -v reading_limit="$reading_limit" -v record="$record" '
  !($1 in most) { name[++calls] = $1 }
  $2 == "bad-row" || $3 == "bad-row" { if ($5 > refused) { refused = $5; refusing = $1 } }
  $1 == "take_in" && $4 == "-" && $3 != "freed" { if ($5 > untaken) { untaken = $5; untaking = $2 " " $3 } }
  $1 == "newick_read" && $3 != "read" && $3 != "long" { if ($5 > broken) { broken = $5; breaking = $2 " " $3 } }
  $1 == "merge_read" && $3 != "read" { if ($5 > unread) { unread = $5; unreading = $2 " " $3 } }
  $5 > most[$1] { most[$1] = $5; left[$1] = $2; right[$1] = $3; layout[$1] = $4 }
  function limit_of(call) { return call == "order" ? order_limit : call == "newick_read" ? reading_limit : limit }
  END {
    printf "%-20s %-11s %-11s %6s %12s %16s\n", "call", "left", "right", "layout", "stack bytes", "with the record"
    for (i = 1; i <= calls; i++) {
      c = name[i]
      above = most[c] > limit_of(c)
      printf "%-20s %-11s %-11s %6s %12d %16d%s\n", c, left[c], right[c], layout[c], most[c], most[c] + record,
        (above ? "  above its limit" : "")
      bad += above || most[c] == 0
      if (most[c] > worst) { worst = most[c]; worst_call = c }
      if (c != "newick_read" && most[c] > other) other = most[c]
    }
    printf "refused for a bad row: %d bytes of stack at most, in %s\n", refused, refusing
    printf "refused in taking in an order: %d bytes of stack at most, %s\n", untaken, untaking
    printf "refused in reading a text: %d bytes of stack at most, %s\n", broken, breaking
    printf "refused in reading a table: %d bytes of stack at most, %s\n", unread, unreading
    printf "order: %d bytes of stack; limit: %d\n", most["order"], order_limit
    printf "newick_read: %d bytes of stack; limit: %d\n", most["newick_read"], reading_limit
    printf "take_in: %d bytes of stack, free: %d; limit: %d\n", most["take_in"], most["free"], limit
    printf "every other call: %d bytes of stack at most; limit: %d\n", other, limit
    printf "most: %d bytes of stack, %d with the record, in %s\n", worst, worst + record, worst_call
    exit (bad != 0 || most["order"] == 0 || refused == 0 || untaken == 0 || broken == 0 || unread == 0 ||
      calls != 20)
  }' target/measure/calls.out
