#!/bin/sh
# Draws random programs, loosely and tangled, and compares what ./codex draw makes of each, and of the drawings of
# ../examples, with layouts.py, which follows docs/GRID.md, "Drawing", and shares nothing with the crates: the same
# bytes, of which `check` and `eval` say what they say of the file, and `draw` the same once more. Last come drawings
# that just fit the limits and that just do not. It prints each that differs, and ends with status 1 where there is one.
#
#   bench/drawings.sh [PROGRAMS [SEED]]
#
# There are 2,000 programs of seed 1 where no numbers are given. CODEX names another program than ./codex.
set -eu

here=$(CDPATH='' cd -- "$(dirname -- "$0")" && pwd)
exec python3 -B "$here/try_drawings.py" "${CODEX:-$here/../codex}" "$@"
