#!/usr/bin/env bash
# desk.sh: answers the calls typed on standard input, a line each (docs/DESK.md). Ends with 1, and says so on standard
# error, where they can't be read. The first time rt proves and builds the program, and all that it stands on.
. "$(dirname "$0")/programs.sh"
built desk
told desk
