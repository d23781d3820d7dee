"""A machine with its image, as docs/MACHINE.md and docs/IMAGES.md say. It shares nothing with the crates.

`place(data)` says where bytes stop being the beginning of an image, or None where they are one. `Machine.of_image` and
`Machine.image` read and write one, and `Machine.run` runs it.
"""
import struct

MAGIC = 0x554d4931
MOST_BYTES, MOST_CYCLES, MOST_ARRAYS, MOST_WORDS = 1207959624, 1 << 62, 1 << 24, 1 << 28


class Ends(Exception):
    """The next word isn't there, or no image goes on with it."""


class Words:
    """The whole words of some bytes, taken one by one."""

    def __init__(self, data):
        self.words, self.at = struct.unpack('>%dI' % (len(data) // 4), data[:len(data) // 4 * 4]), 0

    def take(self, rule=lambda word: True):
        if self.at == len(self.words) or not rule(self.words[self.at]):
            raise Ends()
        self.at += 1
        return self.words[self.at - 1]

    def number(self, most):
        """A number of two words, at most this."""
        high = self.take(lambda word: word <= most >> 32)
        return high << 32 | self.take(lambda word: high << 32 | word <= most)

    def many(self, count):
        if count > len(self.words) - self.at:
            self.at = len(self.words)
            raise Ends()
        self.at += count
        return list(self.words[self.at - count:self.at])


class Machine:
    def __init__(self, scroll=()):
        self.registers, self.finger, self.cycles, self.taken = [0] * 8, 0, 0, 0
        self.halted, self.made, self.abandoned = False, 0, []
        self.arrays, self.words = {0: list(scroll)}, len(scroll)

    def read(self, words):
        """Takes the machine from the words of an image."""
        words.take(lambda word: word == MAGIC)
        self.registers = words.many(8)
        self.finger = words.take()
        self.cycles = words.number(MOST_CYCLES)
        self.taken = words.number(self.cycles)
        self.halted = words.take(lambda word: word <= 1) == 1
        self.made = words.take(lambda word: word <= MOST_ARRAYS)
        gone, seen = words.take(lambda word: word <= self.made), set()
        for _ in range(gone):
            self.abandoned.append(words.take(lambda word: 1 <= word <= self.made and word not in seen))
            seen.add(self.abandoned[-1])
        self.words = 0
        for name in range(self.made + 1):
            if name in seen:
                continue
            if name:
                words.take(lambda word: word == name)
            length = words.take(lambda word: word <= MOST_WORDS - self.words)
            self.words += length
            self.arrays[name] = words.many(length)

    def image(self):
        words = [MAGIC] + self.registers + [self.finger]
        for number in (self.cycles, self.taken):
            words += [number >> 32, number & 0xffffffff]
        words += [int(self.halted), self.made, len(self.abandoned)] + self.abandoned
        for name, array in sorted(self.arrays.items()):
            words += ([name] if name else []) + [len(array)] + array
        return struct.pack('>%dI' % len(words), *words)

    # Running. An end is a pair of a name and what its line says.

    def run(self, cycles, given):
        """Makes so many cycles. Gives the output, and why it ended: None where all were made."""
        self.given, self.out = given, bytearray()
        for _ in range(cycles):
            if self.halted:
                break
            fault = self.cycle()
            if fault:
                if isinstance(fault, str):
                    return bytes(self.out), 'fault %s at cycle %d' % (fault, self.cycles + 1), 4
                return bytes(self.out), 'limit %s at cycle %d: %d over %d' % (
                    fault[0], self.cycles + 1, fault[1], fault[2]), 5
        if self.halted:
            return bytes(self.out), '', 0
        return bytes(self.out), 'budget %d cycles' % cycles, 6

    def cycle(self):
        if self.finger >= len(self.arrays[0]):
            return 'FingerOutside'
        word = self.arrays[0][self.finger]
        operator = word >> 28
        if operator > 13:
            return 'BadOperator'
        a, b, c = word >> 6 & 7, word >> 3 & 7, word & 7
        if operator == 13:
            a = word >> 25 & 7
            fault = self.put(a, word & 0x1ffffff)
        else:
            r = self.registers
            fault = self.OPERATORS[operator](self, a, b, c, r[a], r[b], r[c])
        if fault:
            return fault
        if operator != 12:
            self.finger = self.finger + 1 & 0xffffffff
        self.cycles += 1
        return None

    def put(self, register, word):
        self.registers[register] = word & 0xffffffff

    def move(self, a, b, c, x, y, z):
        if z:
            self.put(a, y)

    def index(self, a, b, c, x, y, z):
        if y not in self.arrays:
            return 'IndexInactive'
        if z >= len(self.arrays[y]):
            return 'IndexOutside'
        self.put(a, self.arrays[y][z])

    def amend(self, a, b, c, x, y, z):
        if x not in self.arrays:
            return 'AmendInactive'
        if y >= len(self.arrays[x]):
            return 'AmendOutside'
        self.arrays[x][y] = z

    def add(self, a, b, c, x, y, z):
        self.put(a, y + z)

    def multiply(self, a, b, c, x, y, z):
        self.put(a, y * z)

    def divide(self, a, b, c, x, y, z):
        if not z:
            return 'DivideByZero'
        self.put(a, y // z)

    def nand(self, a, b, c, x, y, z):
        self.put(a, ~(y & z))

    def halt(self, *_):
        self.halted = True

    def allocate(self, a, b, c, x, y, z):
        if len(self.arrays) > MOST_ARRAYS:
            return 'ArraysFull', len(self.arrays), MOST_ARRAYS
        if self.words + z > MOST_WORDS:
            return 'WordsFull', self.words + z, MOST_WORDS
        if self.abandoned:
            name = self.abandoned.pop()
        else:
            self.made += 1
            name = self.made
        self.arrays[name] = [0] * z
        self.words += z
        self.put(b, name)

    def abandon(self, a, b, c, x, y, z):
        if z == 0:
            return 'AbandonZero'
        if z not in self.arrays:
            return 'AbandonInactive'
        self.words -= len(self.arrays.pop(z))
        self.abandoned.append(z)

    def output(self, a, b, c, x, y, z):
        if z > 255:
            return 'OutputTooLarge'
        self.out.append(z)

    def take(self, a, b, c, x, y, z):
        if self.taken < len(self.given):
            self.put(c, self.given[self.taken])
            self.taken += 1
        else:
            self.put(c, 0xffffffff)

    def load(self, a, b, c, x, y, z):
        if y not in self.arrays:
            return 'LoadInactive'
        if y:
            words = self.words - len(self.arrays[0]) + len(self.arrays[y])
            if words > MOST_WORDS:
                return 'WordsFull', words, MOST_WORDS
            self.arrays[0], self.words = list(self.arrays[y]), words
        self.finger = z

    OPERATORS = [move, index, amend, add, multiply, divide, nand, halt, allocate, abandon, output, take, load]


def machine_of(data):
    """The machine of an image, or where the bytes stop being the beginning of one."""
    words, machine = Words(data), Machine()
    try:
        machine.read(words)
    except Ends:
        return None, words.at * 4
    if words.at * 4 < len(data):
        return None, words.at * 4
    return machine, None
