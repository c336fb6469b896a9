#!/usr/bin/env bash
# sheet.sh [RECORD]: the sheet of a record, of the example that the repository has where none is named; `-` is standard
# input. Ends with 1, and says so on standard error, where the record can't be read or the sheet can't be written, to a
# closed pipe among others. The first time rt proves and builds the program, and all that it stands on.
record=${1:-$(dirname "$0")/../crates/sheet/stdin}
if [ "$record" != - ]; then
  exec < "$record" || exit 1
fi
. "$(dirname "$0")/programs.sh"
built sheet
trap '' PIPE # so that the program is told that nobody reads, and can say so
told sheet
