#!/bin/sh
# Tries ./codex selftest on a thousand numbers, the first 500 and 500 more that are spread over 64 bits, and prints how long
# they took in all, the longest one, and the least and the most of what they told. A number whose status isn't 0, or
# whose last line isn't `ok`, is named, and ends it with status 1.
set -eu

here=$(cd "$(dirname "$0")" && pwd)
codex=$here/../codex
work=$(mktemp -d)
trap 'rm -rf "$work"' EXIT

# 500 numbers from 0 on, 499 that are 36,893,000,000,000,000 apart, and 2^64 - 1
numbers() {
    i=0
    while [ $i -lt 500 ]; do
        echo $i
        i=$((i + 1))
    done
    i=1
    while [ $i -lt 500 ]; do
        echo $((i * 36893))488147419103
        i=$((i + 1))
    done
    echo 18446744073709551615
}

now() { date +%s.%N; }

"$codex" selftest 0 >/dev/null
: >"$work/told"
start=$(now)
numbers | while read -r number; do
    before=$(now)
    if ! "$codex" selftest "$number" >"$work/lines" 2>&1 || [ "$(tail -n 1 "$work/lines")" != ok ]; then
        printf 'selftest %s: not ok\n' "$number"
        exit 1
    fi
    printf 'seconds %s %s\n' "$before" "$(now)" >>"$work/told"
    cat "$work/lines" >>"$work/told"
done
end=$(now)

awk -v all="$(printf '%s %s' "$start" "$end")" '
    $1 == "seconds" { took = $3 - $2; if (took > longest) longest = took; next }
    $1 == "grid" { note("bytes of a grid", $2); note("modules", $4); note("boxes", $6) }
    $1 == "text" { note("bytes of a text", $2) }
    $1 == "scroll" { note("words of a scroll", $2) }
    $1 == "run" { note("cycles", $2) }
    $1 == "ok" { count++ }
    function note(what, n) {
        if (!(what in least)) { order[++whats] = what; least[what] = n; most[what] = n }
        if (n < least[what]) least[what] = n
        if (n > most[what]) most[what] = n
    }
    END {
        split(all, at, " ")
        printf "%d numbers: %.1f seconds in all, %.3f the longest\n", count, at[2] - at[1], longest
        for (i = 1; i <= whats; i++) printf "%s: %d to %d\n", order[i], least[order[i]], most[order[i]]
    }' "$work/told"
