#!/bin/sh
# Plants wrong bodies in crates, each of them an edit of planted/ that was written by hand: a step of a loop that goes
# wrong, two tests turned, a neighbour taken, a field not written, a fault told at another place. The contracts must refuse
# each. It tries them on a copy of what is committed, without the edits of the crates' own must-fail/, prints what came of
# each, and ends with status 1 where one is let through. It wants rt, and a check of each crate before its edits.
#
#   bench/planted.sh CRATE..
#
# The crates that have such edits are the folders of planted/.
set -u

here=$(CDPATH='' cd -- "$(dirname -- "$0")" && pwd)
[ $# -gt 0 ] || {
    echo 'usage: bench/planted.sh CRATE..' >&2
    exit 2
}
work=$(mktemp -d) || exit 2
trap 'rm -rf -- "$work"' EXIT
trap 'exit 2' HUP INT TERM
git clone -q -- "$here/.." "$work/copy" || exit 2
rm -rf -- "$work/copy/crates/"*/must-fail
for crate; do
    cp -R -- "$here/planted/$crate" "$work/copy/crates/$crate/must-fail" || exit 2
done
(cd -- "$work/copy" && rt ci "$@") >"$work/log" 2>&1
status=$?
grep -o 'must-fail [a-z_]*/[a-z0-9_]*\.edit: [A-Za-z ]*' "$work/log" | sort -u
[ "$status" -eq 0 ] || {
    tail -n 5 -- "$work/log" >&2
    exit 1
}
