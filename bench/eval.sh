#!/bin/sh
# Draws programs of four shapes at a size and at twice that size, evaluates each with the first ready event, with the
# last and by a list of picks, and prints the seconds of processor time that ./codex takes and how much longer the
# larger takes. Last come 100 uses of a module of 7,000 boxes: 700,000 events and more. It checks no figure.
set -eu

here=$(cd "$(dirname "$0")" && pwd)
codex=$here/../codex
work=$(mktemp -d)
trap 'rm -rf "$work"' EXIT

# A module: its name, the command of its boxes, and how many there are side by side, in rows.
boxes() {
    awk -v name="$1" -v command="$2" -v n="$3" 'BEGIN {
        len = length(command); edge = " *" line(len, "=") "*"; text = " !" command "!"
        most = int(4080 / (len + 3)); if (n < most) most = n
        w = most * (len + 3) + 1
        printf ",%s,\n:%-" w "s:\n", line(w, "."), name
        for (left = n; left > 0; left -= k) {
            k = left < most ? left : most
            top = ""; mid = ""
            for (b = 0; b < k; b++) { top = top edge; mid = mid text }
            printf ":%-" w "s:\n:%-" w "s:\n:%-" w "s:\n", top, mid, top
        }
        printf "\x27%s\x27\n", line(w, ".")
    }
    function line(n, c,    s) { s = sprintf("%" n "s", ""); gsub(" ", c, s); return s }'
}

# A module of n boxes side by side.
side() {
    boxes main "send[]" "$1"
}

# n uses of a module of 100 boxes: with the first ready event, all are started before any goes on.
uses() {
    boxes main "use m" "$1"
    boxes m "send[]" 100
}

# A chain of n uses of a chain of 100 boxes.
chain() {
    awk -v n="$1" 'BEGIN {
        edge = "  *=====*"; text = "->!use r!"
        top = " *============*"; mid = " !send[((),E)]!"
        for (b = 0; b < n; b++) { top = top edge; mid = mid text }
        w = length(top)
        printf ",%s,\n:%-" w "s:\n:%s:\n:%s-\n:%s:\n\x27%s\x27\n", line(w, "."), "main", top, mid, top, line(w, ".")
        top = ""; mid = ""
        for (b = 0; b < 100; b++) { top = top "  *===========*"; mid = mid "->!send[(W,E)]!" }
        w = length(top) - 1
        printf ",%s,\n:%-" w "s:\n:%s:\n%s-\n:%s:\n\x27%s\x27\n", line(w, "."), "r", substr(top, 2), mid, substr(top, 2), line(w, ".")
    }
    function line(n, c,    s) { s = sprintf("%" n "s", ""); gsub(" ", c, s); return s }'
}

# Modules each of which uses the next one twice: twice as many instances for each one more.
doubling() {
    boxes main "use m$1" 1
    boxes m0 "send[]" 1
    k=0
    while [ "$k" -lt "$1" ]; do
        boxes "m$((k + 1))" "use m$k" 2
        k=$((k + 1))
    done
}

# The processor seconds that ./codex takes for the words.
seconds() {
    { time -p sh -c '"$@" >/dev/null 2>&1' sh "$codex" "$@"; } 2>"$work/time" || true
    awk '$1 == "user" || $1 == "sys" { sum += $2 } END { printf "%.2f", sum }' "$work/time"
}

compare() {
    "$1" "$2" >"$work/one.grid"
    "$1" "$3" >"$work/two.grid"
    for picks in first last 7,0,3; do
        one=$(seconds eval "$work/one.grid" "$picks")
        two=$(seconds eval "$work/two.grid" "$picks")
        printf '%-10s %6s %6s %-6s %8s %8s %6s\n' "$1" "$2" "$3" "$picks" "$one" "$two" \
            "$(awk -v a="$one" -v b="$two" 'BEGIN { if (a > 0) printf "%.2f", b / a; else print "-" }')"
    done
}

"$codex" dis >/dev/null 2>&1 || true
printf '%-10s %6s %6s %-6s %8s %8s %6s\n' shape n 2n picks "at n" "at 2n" ratio
compare side 4000 8000
compare uses 1000 2000
compare chain 200 400
compare doubling 14 15

{ boxes main "use m" 100; boxes m "send[]" 7000; } >"$work/large.grid"
for picks in first last 7,0,3; do
    printf '%-10s %6s %6s %-6s %8s\n' large 7000 "" "$picks" "$(seconds eval "$work/large.grid" "$picks")"
done
