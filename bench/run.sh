#!/bin/sh
# Assembles the texts of this folder with ./codex, and runs each with the program that ./codex runs and with um.c in
# its two plain forms, in turns: `switch` is one switch in a loop (-O2), `goto` a jump from each operator to the next
# (-O3). For each text it prints the median seconds of processor time of `codex`, and its ratios to both forms: those
# of the medians, and those of instructions. It proves nothing and checks no figure.
#
#   bench/run.sh [TURNS [OTHER]]
#
# TURNS is 7 where it isn't given. OTHER is a program that runs the scroll whose path it is given; it stands in the
# place of both forms.
#
# How it measures: processor time is what the shell's `time` says of the program, user and system together, output to
# a file. An idle machine is wanted. Instructions are those that `valgrind --tool=cachegrind` counts over the text with
# two digits fewer of its turns or loads, from the program's start to its end; where there is no valgrind, or the text
# has no such number, there is a `-`.
set -eu

turns=${1:-7}
other=${2:-}
here=$(CDPATH='' cd -- "$(dirname -- "$0")" && pwd)
codex=$here/../codex
work=$(mktemp -d)
trap 'rm -rf -- "$work"' EXIT

"$codex" dis >/dev/null 2>&1 || true    # this builds the program, where it isn't built
program=$here/../out/codex-$(sh "$here/../.ci/sum")
[ -x "$program" ] || program=$codex

if [ -n "$other" ]; then
    forms=other
    ln -s -- "$(command -v "$other")" "$work/other"
else
    forms='switch goto'
    compiler=$(command -v "${CC:-cc}" || command -v gcc || command -v clang) || {
        echo "bench/run.sh: no C compiler; give another interpreter: bench/run.sh TURNS OTHER" >&2
        exit 2
    }
    "$compiler" -O2 -DPLAIN -o "$work/switch" "$here/um.c"
    "$compiler" -O3 -DPLAIN -DGOTO -o "$work/goto" "$here/um.c"
fi

# How a scroll is run by `codex` or a form: the words, apart by lines.
words() {
    case $1 in
        codex) printf '%s\n' "$program" run ;;
        *) printf '%s\n' "$work/$1" ;;
    esac
    printf '%s\n' "$2"
}

# The processor seconds of one such run; its output goes to a file.
seconds() {
    out=$work/$1.out
    IFS='
'
    # shellcheck disable=SC2046 # a word a line
    set -- $(words "$1" "$2")
    unset IFS
    { time -p sh -c 'out=$1; shift; exec "$@" >"$out" 2>/dev/null </dev/null' sh "$out" "$@"; } 2>"$work/time" || true
    awk '$1 == "user" || $1 == "sys" { sum += $2 } END { printf "%.2f\n", sum }' "$work/time"
}

# The instructions of one such run, or nothing where they aren't counted.
instructions() {
    command -v valgrind >/dev/null && [ -f "$2" ] || return 0
    IFS='
'
    # shellcheck disable=SC2046 # a word a line
    set -- $(words "$1" "$2")
    unset IFS
    valgrind --tool=cachegrind --cache-sim=no --cachegrind-out-file=/dev/null --log-file="$work/counted" "$@" \
        >/dev/null 2>&1 </dev/null || true
    awk '/I +refs:/ { gsub(",", "", $NF); print $NF }' "$work/counted"
}

median() {
    sort -n "$1" | awk '{ a[NR] = $1 } END { m = int((NR + 1) / 2); print NR % 2 ? a[m] : (a[m] + a[m + 1]) / 2 }'
}

ratio() {
    awk -v a="$1" -v b="$2" 'BEGIN { if (a != "" && b + 0 > 0) printf "%.2f", a / b; else print "-" }'
}

printf '%-20s %7s' text codex
for form in $forms; do printf ' %8s %12s' "/$form" instructions; done
printf '  %s\n' checksum
for text in "$here"/*.s; do
    name=$(basename "$text" .s)
    cp "$text" "$work/$name.s"
    (cd "$work" && "$codex" asm "$name.s" "$name.um")
    sed 's/\(set r[0-7], [0-9]*\)[0-9][0-9]\( *; \(turns\|loads\)\)/\1\2/' "$text" >"$work/short.s"
    rm -f "$work/short.um" "$work"/*.seconds
    cmp -s "$text" "$work/short.s" || (cd "$work" && "$codex" asm short.s short.um)
    turn=1
    while [ "$turn" -le "$turns" ]; do
        for form in codex $forms; do seconds "$form" "$work/$name.um" >>"$work/$form.seconds"; done
        turn=$((turn + 1))
    done
    ours=$(median "$work/codex.seconds")
    counted=$(instructions codex "$work/short.um")
    checksum=$(tail -c 16 "$work/codex.out" | tail -n 1)
    printf '%-20s %7s' "$name" "$ours"
    for form in $forms; do
        printf ' %8s %12s' "$(ratio "$ours" "$(median "$work/$form.seconds")")" \
            "$(ratio "$counted" "$(instructions "$form" "$work/short.um")")"
        cmp -s "$work/codex.out" "$work/$form.out" || checksum="$checksum (the output of $form differs)"
    done
    printf '  %s\n' "$checksum"
done
