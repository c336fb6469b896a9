#!/usr/bin/env python3
"""Brings the names that the pages quote to today's spelling, for the port.

usage: python3 tools/pages.py NAMES.json     at the top: rewrites README.md and docs/*.md, docs/landings/*.md

NAMES.json gives a new name for each old one. Only text between backticks is touched, and in it whole names alone.
"""

import glob
import json
import re
import sys

NAME = re.compile(r"[A-Za-z][\w'′-]*")
# words of a command or a file that look like a name of ours
KEEP = {"must-fail"}


def main():
    to = json.load(open(sys.argv[1], encoding="utf-8"))
    changed = 0
    for path in ["README.md"] + sorted(glob.glob("docs/*.md")) + sorted(glob.glob("docs/landings/*.md")):
        if path == "docs/PORT.md":
            continue
        before = open(path, encoding="utf-8").read()

        def quoted(m):
            text = m.group(0)
            if re.search(r"\.(rs|py|sh|c|h|edit|md)\b|--|\$|^`(rt|bash|git) ", text):
                return text
            return NAME.sub(lambda n: n.group(0) if n.group(0) in KEEP else to.get(n.group(0), n.group(0)), text)

        after = re.sub(r"`[^`\n]+`", quoted, before)
        if after != before:
            changed += 1
            with open(path, "w", encoding="utf-8") as f:
                f.write(after)
    print(changed, "pages")


if __name__ == "__main__":
    main()
