#!/bin/sh
# Makes each allocation of each command fail, one in each run, and looks at what comes. That may be the right answer; or
# status 9 with `no memory`, or with nothing where the list of arguments itself found no memory, with a beginning of the
# output, and the file as it was. It prints how many allocations each command makes, and each number at which something
# else came; it ends with status 1 where there was one. It wants a C compiler.
#
#   bench/refused.sh [MOST]
#
# Of a command that makes more than MOST allocations, 500 where none is given, so many are tried that are evenly spread.
# CODEX names another program than that of ./codex.
set -u

here=$(CDPATH='' cd -- "$(dirname -- "$0")" && pwd)
most=${1:-500}
[ -n "${CODEX:-}" ] || "$here/../codex" >/dev/null 2>&1
# the program itself: the launcher is a script, whose shell would be refused memory too
codex=${CODEX:-$here/../out/codex-$(sh "$here/../.ci/sum")}
[ -x "$codex" ] || {
    echo "bench/refused.sh: there is no program at $codex" >&2
    exit 2
}
compiler=$(command -v "${CC:-cc}" || command -v gcc || command -v clang) || {
    echo 'bench/refused.sh: there is no C compiler' >&2
    exit 2
}
work=$(mktemp -d)
trap 'rm -rf "$work"' EXIT
trap 'exit 2' HUP INT TERM
"$compiler" -O2 -fno-builtin -shared -fPIC -o "$work/refuse.so" "$here/refuse.c" -ldl || exit 2
wrong=0

# one run in which the allocation of this number fails: its output, its line, its status and the file
run() {
    number=$1 to=$2
    shift 2
    rm -f o calls
    REFUSE=$number REFUSE_COUNT=$work/calls LD_PRELOAD=$work/refuse.so "$codex" "$@" <"$input" >"$to.out" 2>"$to.err"
    echo $? >"$to.status"
    rm -f "$to.file"
    [ ! -e o ] || mv o "$to.file"
}

same_file() {
    if [ -e "$2.file" ]; then cmp -s "$1.file" "$2.file"; else [ ! -e "$1.file" ]; fi
}

same() {
    cmp -s "$1.out" "$2.out" && cmp -s "$1.err" "$2.err" && cmp -s "$1.status" "$2.status" && same_file "$1" "$2"
}

begins() {
    [ "$(head -c "$(wc -c <"$1.out")" "$2.out" | cksum)" = "$(cksum <"$1.out")" ]
}

# want of memory: no file, a beginning of the output, and the line, or nothing
wants() {
    [ "$(cat "$1.status")" = 9 ] && [ ! -e "$1.file" ] && begins "$1" "$2" \
        && { [ ! -s "$1.err" ] || [ "$(cat "$1.err")" = 'no memory' ]; }
}

each() {
    run 0 whole "$@"
    if [ "$(cat whole.status)" = 2 ]; then
        echo "$*: no such command yet"
        return
    fi
    count=$(cat calls)
    step=$(((count + most - 1) / most))
    [ "$step" -gt 0 ] || step=1
    right=0 memory=0 silent=0 other=0 number=1
    while [ "$number" -le "$count" ]; do
        run "$number" one "$@"
        if same one whole; then
            right=$((right + 1))
        elif wants one whole; then
            memory=$((memory + 1))
            [ -s one.err ] || silent=$((silent + 1))
        else
            wrong=1 other=$((other + 1))
            echo "$*: allocation $number: status $(cat one.status), $(head -c 200 one.err)"
        fi
        number=$((number + step))
    done
    tried=$((right + memory + other))
    echo "$*: $count allocations; of $tried that failed, $memory ended in want of memory, $silent of these without a" \
        "line, and $right in the right answer"
}

cd "$work" || exit 2
: >empty
cp "$here/../examples/addition.grid" f
cat >sheet <<'END'
type u = ()
type nat = [u|nat]
module main e nat
wire main 1 S nat
wire main 1 E nat
module plus n nat w nat e nat
wire plus 2 S nat
wire plus 2 E nat
wire plus 3 E nat
wire plus 5 E nat
END
printf 'set r0, 65\nout r0\nhalt\n' >a.s
printf '\320\0\0\101\240\0\0\0\160\0\0\0' >h
printf '\320\0\0\7\200\0\0\10\260\0\0\2\240\0\0\2\220\0\0\1\160\0\0\0' >keeping
printf 's 1\nr\nf\nc 9\nx\nq\n' >lines
printf 'xy' >xy
input=empty
each check f
each eval f
each eval f last
each trace f first 5
each compile f o
"$codex" compile f sum.um && each run sum.um
each run h
each asm a.s o
each dis h
input=lines
each debug h empty
input=xy
each save keeping 5 o
"$codex" save keeping 3 kept <xy >/dev/null 2>&1
each resume kept 9
input=empty
each draw f
each type f sheet
each selftest 1
exit "$wrong"
