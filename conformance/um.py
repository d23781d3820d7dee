#!/usr/bin/env python3
"""A plain interpreter of the machine of docs/MACHINE.md, written from that page alone.

    um.py [SEED] SCROLL

Input is standard input, output is standard output. Without SEED identifiers follow the page's own rule. With one, a
number, they are any legal ones, drawn by it: a scroll that writes the same under many seeds rests on no rule of
identifiers. So `conformance/run conformance/um.py 7` agrees with all scrolls that any machine must run alike.

It ends with 0 at a Halt. Else it writes the fault's name and cycle to standard error, and ends with 4, or with 5 at a
limit. It is slow, and is there to be read, and to find what a scroll must write by something else than `codex`.
"""
import random
import sys

ONES = 0xFFFFFFFF
MOST_ARRAYS = 16_777_216
MOST_WORDS = 268_435_456


class Stop(Exception):
    def __init__(self, name, status=4):
        super().__init__(name)
        self.name, self.status = name, status


class Arrays:
    def __init__(self, program, seed):
        self.of = {0: program}
        self.abandoned = []
        self.made = 0
        self.words = len(program)
        self.draw = random.Random(seed) if seed is not None else None

    def identifier(self):
        if self.draw:
            while True:
                found = self.draw.randint(1, ONES)
                if found not in self.of:
                    return found
        if self.abandoned:
            return self.abandoned.pop()
        self.made += 1
        return self.made

    def allocate(self, size):
        if len(self.of) > MOST_ARRAYS:
            raise Stop("ArraysFull", 5)
        if self.words + size > MOST_WORDS:
            raise Stop("WordsFull", 5)
        found = self.identifier()
        self.of[found] = [0] * size
        self.words += size
        return found

    def abandon(self, which):
        if which == 0:
            raise Stop("AbandonZero")
        if which not in self.of:
            raise Stop("AbandonInactive")
        self.words -= len(self.of.pop(which))
        self.abandoned.append(which)

    def load(self, which):
        if which == 0:
            return
        if which not in self.of:
            raise Stop("LoadInactive")
        words = self.words - len(self.of[0]) + len(self.of[which])
        if words > MOST_WORDS:
            raise Stop("WordsFull", 5)
        self.of[0] = self.of[which][:]
        self.words = words


def cycle(r, arrays, finger, take, put):
    """One cycle: the finger after it, or None at a Halt."""
    program = arrays.of[0]
    if finger >= len(program):
        raise Stop("FingerOutside")
    word = program[finger]
    operator = word >> 28
    if operator > 13:
        raise Stop("BadOperator")
    finger += 1
    if operator == 13:
        r[word >> 25 & 7] = word & 0x1FFFFFF
        return finger
    a, b, c = word >> 6 & 7, word >> 3 & 7, word & 7
    if operator == 0:
        if r[c] != 0:
            r[a] = r[b]
    elif operator == 1:
        if r[b] not in arrays.of:
            raise Stop("IndexInactive")
        if r[c] >= len(arrays.of[r[b]]):
            raise Stop("IndexOutside")
        r[a] = arrays.of[r[b]][r[c]]
    elif operator == 2:
        if r[a] not in arrays.of:
            raise Stop("AmendInactive")
        if r[b] >= len(arrays.of[r[a]]):
            raise Stop("AmendOutside")
        arrays.of[r[a]][r[b]] = r[c]
    elif operator == 3:
        r[a] = r[b] + r[c] & ONES
    elif operator == 4:
        r[a] = r[b] * r[c] & ONES
    elif operator == 5:
        if r[c] == 0:
            raise Stop("DivideByZero")
        r[a] = r[b] // r[c]
    elif operator == 6:
        r[a] = ONES & ~(r[b] & r[c])
    elif operator == 7:
        return None
    elif operator == 8:
        r[b] = arrays.allocate(r[c])
    elif operator == 9:
        arrays.abandon(r[c])
    elif operator == 10:
        if r[c] > 255:
            raise Stop("OutputTooLarge")
        put(r[c])
    elif operator == 11:
        byte = take()
        r[c] = byte[0] if byte else ONES
    elif operator == 12:
        arrays.load(r[b])
        finger = r[c]
    return finger


def main(words):
    if len(words) not in (1, 2):
        print("usage: um.py [SEED] SCROLL", file=sys.stderr)
        return 2
    with open(words[-1], "rb") as file:
        scroll = file.read()
    if len(scroll) % 4 != 0:
        print("Ragged", file=sys.stderr)
        return 1
    program = [int.from_bytes(scroll[at : at + 4], "big") for at in range(0, len(scroll), 4)]
    arrays = Arrays(program, int(words[0]) if len(words) == 2 else None)
    registers, finger, made = [0] * 8, 0, 0
    out = sys.stdout.buffer

    def take():
        return sys.stdin.buffer.read(1)

    try:
        while finger is not None:
            finger = cycle(registers, arrays, finger, take, lambda byte: out.write(bytes([byte])))
            made += 1
    except Stop as stop:
        out.flush()
        print(f"{stop.name} at cycle {made + 1}", file=sys.stderr)
        return stop.status
    out.flush()
    return 0


if __name__ == "__main__":
    sys.exit(main(sys.argv[1:]))
