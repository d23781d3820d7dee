#!/bin/sh
# Makes drawings of several shapes at two sizes, about 131,072 and 262,144 bytes, and prints the seconds of processor
# time that ./codex takes to check and to compile each, so that one sees how they grow. Then it evaluates the endless
# example for one and for two million events, with the first and with the last ready event. It checks no figure.
set -eu

here=$(cd "$(dirname "$0")" && pwd)
codex=$here/../codex
work=$(mktemp -d)
trap 'rm -rf "$work"' EXIT

# One module a line of the shape, each with one box: as many as fit.
modules() {
    awk -v bytes="$1" 'BEGIN {
        text = strip("main", "send[((),E)]")
        for (i = 0; length(text) + 84 < bytes; i++) text = text strip("m" i, "send[]")
        printf "%s", text
    }
    function strip(name, command,    w, line, edge, k) {
        w = length(command) + 3
        line = ""; for (k = 0; k < w; k++) line = line "."
        edge = ""; for (k = 0; k < length(command); k++) edge = edge "="
        return "," line ",\n:" sprintf("%-" w "s", name) ":\n: *" edge "*:\n: !" command "!-\n: *" edge "*:\n\x27" line "\x27\n"
    }'
}

# One module: rows of 250 boxes, each wired to the next.
boxes() {
    awk -v bytes="$1" 'BEGIN {
        rows = int((bytes - 9000) / (3 * 3780)); w = 3775
        printf ",%s,\n:%-" w "s:\n", line(w, "."), "main"
        for (r = 0; r < rows; r++) {
            top = " *============*"; mid = " !send[((),E)]!"
            for (b = 1; b < 250; b++) { top = top "  *===========*"; mid = mid "->!send[(W,E)]!" }
            printf ":%-" w "s:\n:%-" w "s:\n:%-" w "s:\n", top, mid, top
        }
        printf "\x27%s\x27\n", line(w, ".")
    }
    function line(n, c,    s) { s = sprintf("%" n "s", ""); gsub(" ", c, s); return s }'
}

# One module with one wire, which goes to and fro through all of it.
wire() {
    awk -v bytes="$1" 'BEGIN {
        w = 509; n = int(bytes / (2 * (w + 3))) - 3; if (n % 2 == 0) n--
        printf ",%s,\n:%-" w "s:\n", line(w, "."), "wire"
        for (k = 0; k < n; k++) {
            last = k == n - 1
            if (k == 0) printf "-%s:\n", line(w - 1, "-") "+"
            else if (k % 2) printf ":+%s+:\n", line(w - 2, "-")
            else if (last) printf ":+%s-\n", line(w - 1, "-")
            else printf ":+%s+:\n", line(w - 2, "-")
            if (!last) printf ":%s:\n", (k % 2) ? "|" sprintf("%" (w - 1) "s", "") : sprintf("%" (w - 1) "s", "") "|"
        }
        printf "\x27%s\x27\n", line(w, ".")
        printf ",......,\n:main  :\n\x27......\x27\n"
    }
    function line(n, c,    s) { s = sprintf("%" n "s", ""); gsub(" ", c, s); return s }'
}

# One module with two wires, one in rows and one in columns, that cross in all of it.
crossings() {
    awk -v bytes="$1" 'BEGIN {
        n = int(sqrt(bytes)) - 12; if (n % 2 == 0) n--
        m = n + 4                       # the area is at rows and columns 3 to n + 2 of the interior
        for (r = 1; r <= m + 2; r++) for (c = 1; c <= m; c++) cell[r, c] = " "
        for (r = 4; r <= n + 3; r++) for (c = 3; c <= n + 2; c++) cell[r, c] = "#"
        for (k = 0; k < n; k++) {       # the wire in rows
            r = 4 + k
            right = (int(k / 2) % 2) ? m : m - 1; left = (int((k + 1) / 2) % 2) ? 1 : 2
            if (k == 0) { for (c = 1; c < 3; c++) cell[r, c] = "-" }
            else { cell[r, left] = "+"; for (c = left + 1; c < 3; c++) cell[r, c] = "-" }
            if (k == n - 1) { for (c = n + 3; c <= m; c++) cell[r, c] = "-" }
            else { cell[r, right] = "+"; for (c = n + 3; c < right; c++) cell[r, c] = "-" }
        }
        for (k = 0; k < n; k++) {       # the wire in columns
            c = 3 + k
            low = (int(k / 2) % 2) ? n + 5 : n + 4; high = (int((k + 1) / 2) % 2) ? 2 : 3
            if (k == 0) { for (r = 1; r < 4; r++) cell[r, c] = "|" }
            else { cell[high, c] = "+"; for (r = high + 1; r < 4; r++) cell[r, c] = "|" }
            if (k == n - 1) { for (r = n + 4; r < m + 2; r++) cell[r, c] = "|"; cell[m + 2, c] = "+"
                for (d = c + 1; d <= m; d++) cell[m + 2, d] = "-" }
            else { cell[low, c] = "+"; for (r = n + 4; r < low; r++) cell[r, c] = "|" }
        }
        cell[1, 1] = "x"
        top = line(m, "."); printf ",..|%s,\n", substr(top, 4)
        for (r = 1; r <= m + 2; r++) {
            text = (r == 4) ? "-" : ":"
            for (c = 1; c <= m; c++) text = text cell[r, c]
            printf "%s%s\n", text, (r == n + 3 || r == m + 2) ? "-" : ":"
        }
        printf "\x27%s\x27\n,......,\n:main  :\n\x27......\x27\n", top
    }
    function line(n, c,    s) { s = sprintf("%" n "s", ""); gsub(" ", c, s); return s }'
}

# The processor seconds that ./codex takes for the words.
seconds() {
    { time -p sh -c '"$@" >/dev/null 2>&1' sh "$codex" "$@"; } 2>"$work/time" || true
    awk '$1 == "user" || $1 == "sys" { sum += $2 } END { printf "%.2f", sum }' "$work/time"
}

printf '%-12s %8s %-24s %8s %8s\n' shape bytes check seconds compile
for shape in modules boxes wire crossings; do
    for size in 131072 262144; do
        "$shape" "$size" >"$work/$shape.grid"
        bytes=$(wc -c <"$work/$shape.grid")
        said=$("$codex" check "$work/$shape.grid" 2>&1) || true
        printf '%-12s %8s %-24s %8s %8s\n' "$shape" "$bytes" "$said" "$(seconds check "$work/$shape.grid")" \
            "$(seconds compile "$work/$shape.grid" "$work/out.um")"
    done
done
printf '\n%-12s %8s %8s %8s\n' evaluation events first last
for events in 1000000 2000000; do
    printf '%-12s %8s %8s %8s\n' endless "$events" "$(seconds eval "$here/../examples/endless.grid" first "$events")" \
        "$(seconds eval "$here/../examples/endless.grid" last "$events")"
done
