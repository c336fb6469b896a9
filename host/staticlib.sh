#!/usr/bin/env bash
# staticlib.sh: makes the archive of the calls for C, target/staticlib/libtangle.a, whose functions host/viewer/tangle.h
# has. The first time rt proves them and all that they stand on.
. "$(dirname "$0")/archive.sh"
archive tangle
