#!/bin/sh
# Compiles each example drawing, and prints the words of its scroll, and what its run comes to: the cycles until it
# halts, and the arrays and words that are live then. It checks no figure.
set -eu

here=$(cd "$(dirname "$0")" && pwd)
codex=$here/../codex
work=$(mktemp -d)
trap 'rm -rf "$work"' EXIT

for grid in "$here"/../examples/*.grid; do
    name=$(basename "$grid" .grid)
    "$codex" compile "$grid" "$work/$name.um"
    words=$(($(wc -c <"$work/$name.um") / 4))
    # the debugger tells what stands after so many cycles
    said=$(printf 's 1000000\nf\n' | "$codex" debug "$work/$name.um" "$grid")
    stop=$(printf '%s\n' "$said" | sed -n 's/^\(halted\|stopped\) cycles \([0-9]*\).*/\1 after \2 cycles/p')
    live=$(printf '%s\n' "$said" | sed -n 's/^finger .* arrays \([0-9]*\) words \([0-9]*\) next .*/\1 arrays, \2 words/p')
    printf '%s: %d words; %s, with %s\n' "$name" "$words" "$stop" "$live"
done
