#!/bin/sh
# Compares ./codex save and resume with images.py, which follows docs/IMAGES.md and docs/MACHINE.md, and shares nothing
# with the crates: the images of three machines, each cut of them, changed ones, with the place where each is no image,
# or what its machine does; and two runs of a million cycles and more, each cut at 20 places: the image of each cut, and
# that the run that is gone on with writes the same and ends the same. It prints each that differs, and ends with status
# 1 where there is one.
#
#   bench/images.sh [CHANGES [SEED]]
#
# There are 2,000 changed images of seed 1 where no numbers are given. CODEX names another program than ./codex.
set -eu

here=$(CDPATH='' cd -- "$(dirname -- "$0")" && pwd)
exec python3 -B "$here/try_images.py" "${CODEX:-$here/../codex}" "$@"
