#!/bin/sh
# Draws random programs with sheets that fit and with changed ones, and compares what ./codex type says of each with
# sheets.py, which follows docs/TYPES.md and shares nothing with the crates. It prints how often each answer came, and
# each that differs, and ends with status 1 where there is one.
#
#   bench/types.sh [CASES [SEED]]
#
# There are 2,000 cases of seed 1 where no numbers are given. CODEX names another program than ./codex.
set -eu

here=$(CDPATH='' cd -- "$(dirname -- "$0")" && pwd)
exec python3 -B "$here/try_types.py" "${CODEX:-$here/../codex}" "$@"
