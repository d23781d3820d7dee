#!/bin/sh
# Draws random programs, changes some bytes of each drawing, or something of the program before it is drawn, and compares
# the first fault and its place that ./codex check tells with grid.py, which follows docs/GRID.md and shares nothing with
# the crates. It prints how often each fault came, and each drawing that differs, and ends with status 1 where there is
# one.
#
#   bench/faults.sh [DRAWINGS [SEED]]
#
# There are 2,000 drawings of seed 1 where no numbers are given. CODEX names another program than ./codex.
set -eu

here=$(CDPATH='' cd -- "$(dirname -- "$0")" && pwd)
exec python3 -B "$here/try_faults.py" "${CODEX:-$here/../codex}" "$@"
