#!/usr/bin/env python3
"""A compiler from Brainfuck to the assembly text of docs/ASSEMBLY.md: brainfuck.py PROGRAM.bf > OUT.s

Of the program only the eight commands count; all else is comment.

    >  <    go to the next cell, to the one before         +  -    one more in the cell, one less
    .       write the cell's byte                          ,       read a byte into it; 0 at the end of the input
    [  ]    do what stands between, while the cell isn't 0 as it begins

There are 30,000 cells, each a byte that goes round from 255 to 0, and all 0 at first. A program that leaves them to the
left or right meets the machine's fault IndexOutside or AmendOutside at its next command in a cell.

Registers of the scroll: r7 is 0, r6 is 1, r5 the array of cells, r4 the cell's offset, r3 is 255; r0 to r2 are free.
"""
import re
import sys

CELLS = 30_000

BEGIN = [
    "set r6, 1",
    "set r3, 255",
    f"set r0, {CELLS}",
    "alloc r5, r0            ; the cells",
]
# Conditional Move is the only choice that the machine has: the place to go on at is chosen, then it goes there.
OPEN = ["index r0, r5, r4", "set r1, after{0}", "set r2, inside{0}", "cmov r1, r2, r0", "load r7, r1"]
CLOSE = ["set r1, begin{0}", "load r7, r1"]
WRITE = ["index r0, r5, r4", "out r0"]
# 2^32 - 1 and one more is 0: so r1 is 0 at the end, and else the byte
READ = ["in r0", "add r1, r0, r6", "cmov r1, r0, r1", "amend r5, r4, r1"]


def runs(source):
    """The commands in order, equal ones that follow each other as one: (command, how many)."""
    commands = re.sub(r"[^-+<>.,[\]]", "", source)
    return [(run[0][0], len(run[0])) for run in re.finditer(r"\++|-+|>+|<+|[.,[\]]", commands)]


def change(amount):
    """Adds to the cell, and keeps the lowest eight bits: two Not-Ands with 255 are an And."""
    return [
        "index r0, r5, r4",
        f"set r1, {amount % 256}",
        "add r0, r0, r1",
        "nand r0, r0, r3",
        "nand r0, r0, r0",
        "amend r5, r4, r0",
    ]


def move(by):
    """Goes by so many cells. The machine has no difference: to go back adds 2^32 less the number."""
    minus = ["nand r0, r0, r0", "add r0, r0, r6"] if by < 0 else []
    return [f"set r0, {abs(by)}", *minus, "add r4, r4, r0"]


def text(source):
    """The lines of the assembly text."""
    lines, opened, loops = [], [], 0

    def put(statements, note=""):
        for number, statement in enumerate(statements):
            line = f"        {statement}"
            lines.append(f"{line:32}; {note}" if note and not number else line)

    put(BEGIN)
    for command, many in runs(source):
        if command in "+-":
            put(change(many if command == "+" else -many), command * many)
        elif command in "<>":
            put(move(many if command == ">" else -many), command * many)
        elif command in ".,":
            put(WRITE if command == "." else READ, command)
        elif command == "[":
            loops += 1
            opened.append(loops)
            lines.append(f"begin{loops}:")
            put([it.format(loops) for it in OPEN], "[")
            lines.append(f"inside{loops}:")
        elif not opened:
            raise ValueError("a ] that closes no [")
        else:
            loop = opened.pop()
            put([it.format(loop) for it in CLOSE], "]")
            lines.append(f"after{loop}:")
    if opened:
        raise ValueError("a [ that is not closed")
    return [*lines, "        halt"]


def main(words):
    if len(words) != 1:
        print("usage: brainfuck.py PROGRAM.bf > OUT.s", file=sys.stderr)
        return 2
    with open(words[0], encoding="utf-8") as file:
        source = file.read()
    try:
        print("\n".join(text(source)))
    except ValueError as error:
        print(f"brainfuck.py: {error}", file=sys.stderr)
        return 1
    return 0


if __name__ == "__main__":
    sys.exit(main(sys.argv[1:]))
