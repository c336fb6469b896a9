#!/usr/bin/env python3
"""The must-fail edits, brought from LANDED's spelling to today's, and the check that each of them applies.

    python3 tools/edits.py check      lists each edit an `old:` text of which doesn't stand once in its file
    python3 tools/edits.py goals LOG  the table of docs/EDITS.md, from what `rt ci` printed: the goal that refuses each edit
    python3 tools/edits.py spell      once, after port.py and tools/spelling.py: respells the texts below

Edits whose text changed in more than spelling were written by hand; docs/PORT.md has them, old and new side by side.
"""
import glob
import os
import re
import sys

TOP = os.path.dirname(os.path.dirname(os.path.abspath(__file__)))

# For each edit what is replaced in its texts, in this order.
SPELLING = {
    "tanglegram/above_upper_only": [("List·Memᴰ", "Memᴰ")],
    "tanglegram/crossing_at_one_leaf": [("lib.Dec.leb", "Rattle.std.specs.Prelude.leb")],
    "tanglegram/flip_unpins": [("byteOf", "byte_of"), ("mayChange", "may_change")],
    "tanglegram/freeing_turns_pins": [("mayChange", "may_change")],
    "tanglegram/links_inverted": [("getD", "get_or")],
    "tanglegram/object_used_twice": [("lower-new", "lower_new")],
    "tanglegram/tie_turns": [("lib.Dec.leb", "Rattle.std.specs.Prelude.leb")],
    "work_places/inverse_for_links": [
        ("(to (now (links .entry)) a)", "at places.now (to links.now a)) n out.old"),
        ("(back (take n (now (links .entry))) a)", "at places.now (back (take n links.now) a)) n out.old"),
    ],
    "newick/rows_numbered_as_groups_open": [("objectFrom", "object_from")],
    "newick/second_point_in_a_length": [("pastDigits", "past_digits"), ("length-read", "length_read")],
    "merge/leaf_used_twice": [("Prim.Native.Nat", "Rattle.std.specs.Prelude")],
    "merge/signs_exchanged": [("namedBy", "named_by")],
    "record_fields/low_byte_first": [("getD", "get_or")],
    "record_packing/contents_before_lengths": [
        ("packRefusal", "pack_refusal"), ("orElse", "or_else"), ("partsShapeRefusal", "parts_shape_refusal"),
        ("contentsRefusal", "contents_refusal"),
    ],
    "calls_hands/pinned_before_held": [
        ("holdOf", "hold_of"), ("sideOf", "side_of"), ("(h .side)", "h.side"), ("mayChange", "may_change"),
        ("rowByte", "row_byte"), ("(h .row)", "h.row"),
    ],
    "calls_merge/twice_before_none": [("someNone", "some_none")],
    "calls_pins/row_before_record": [("orElse", "or_else"), ("noRow", "no_row"), ("sizeOf", "size_of")],
    "calls_take_in/count_of_the_present": [
        ("tableOf", "table_of"), ("takenLayouts", "taken_layouts"), ("sideOf", "side_of"), ("layoutsOf", "layouts_of"),
    ],
    "calls_take_in/least_over_unpermitted": [
        ("takenLayouts", "taken_layouts"), ("takenBytes", "taken_bytes"), ("layoutsOf", "layouts_of"),
        ("shownOn", "shown_on"),
    ],
    "calls_take_in/room_before_pins": [
        ("againstPins", "against_pins"), ("layoutsOf", "layouts_of"), ("shownOn", "shown_on"), ("sideOf", "side_of"),
        ("sizeOf", "size_of"),
    ],
    "calls_sheet/orders_after_the_run": [("leftLine", "left_line"), ("afterRun", "after_run")],
    "desk_words/sign_lost": [("negℤ", "neg_ℤ")],
    "tangle/layout_not_written": [("out′", "out'")],
    "tangle/n_for_row": [("a .refusal .row", "a.refusal.row"), ("a .n", "a.n")],
}


def spell():
    for edit, pairs in SPELLING.items():
        crate, name = edit.split("/")
        path = os.path.join(TOP, "crates", crate, "must-fail", name + ".edit")
        with open(path) as f:
            text = f.read()
        for old, new in pairs:
            text = text.replace(old, new)
        with open(path, "w") as f:
            f.write(text)


def misses(path):
    """What keeps an edit from applying."""
    crate = os.path.dirname(os.path.dirname(path))
    text, old, said = "", None, []
    with open(path) as f:
        lines = f.read().split("\n")
    for line in lines:
        if line.startswith("file: "):
            with open(os.path.join(crate, line[6:].strip())) as f:
                text = f.read()
        elif line.startswith("old: "):
            old = line[5:]
        elif line.startswith("new: "):
            if text.count(old) != 1:
                said.append("%d times: %s" % (text.count(old), old))
            text = text.replace(old, line[5:], 1)
    return said


def check():
    edits = sorted(glob.glob(os.path.join(TOP, "crates", "*", "must-fail", "*.edit")))
    bad = 0
    for path in edits:
        said = misses(path)
        bad += bool(said)
        for line in said:
            print(os.path.relpath(path, TOP), line)
    print("%d edits, %d that don't apply" % (len(edits), bad))
    return bad


def goals(log):
    """Of each edit where the check stops first, a function or a file of lemmas, and the goal there."""
    print("| Edit | Where | Goal |\n|---|---|---|")
    for line in open(log):
        told = re.match(r".*must-fail (\S+)\.edit: refused, as it must be: (.*)", line)
        if not told:
            continue
        why = told.group(2)
        goal = re.search(r"error: `([^`]+)`", why) or re.search(r"\(`([^`]+)`\)", why)
        place = re.match(r"(?:note: )?(?:\./)?([^:\s]+)", why).group(1)
        place = re.sub(r"^proofs/(.+)/(?:Answers|Invariants)\.antt$", lambda m: m.group(1).replace("/", "::"), place)
        print("| %s | `%s` | `%s` |" % (told.group(1), place, goal.group(1)))


if __name__ == "__main__":
    if sys.argv[1:] == ["spell"]:
        spell()
    elif sys.argv[1:2] == ["goals"] and len(sys.argv) == 3:
        goals(sys.argv[2])
    elif sys.argv[1:] == ["check"]:
        sys.exit(1 if check() else 0)
    else:
        sys.exit(__doc__)
