#!/bin/sh
# Changes some bytes of random drawings, and compares what ./explain grid shows of each with ./codex check and with
# pages.py, which follows docs/EXPLAIN.md and shares nothing with the crates. It prints how often each fault came, each
# page that differs, and the time that the largest drawings take, and ends with status 1 where a page differs.
#
#   bench/explain.sh [DRAWINGS [SEED]]
#
# There are 2,000 drawings of seed 1 where no numbers are given. CODEX and EXPLAIN name other programs.
set -eu

here=$(CDPATH='' cd -- "$(dirname -- "$0")" && pwd)
exec python3 -B "$here/try_pages.py" "${CODEX:-$here/../codex}" "${EXPLAIN:-$here/../explain}" "$@"
