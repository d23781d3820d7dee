"""Tries `codex save` and `codex resume`, and compares with images.py: the image of three machines, every cut of each,
and changed ones; and long runs that are cut.

    try_images.py CODEX [CHANGES [SEED]]
"""
import collections
import os
import random
import re
import struct
import subprocess
import sys
import tempfile

from images import MOST_ARRAYS, MOST_WORDS, Machine, machine_of

HERE = os.path.dirname(os.path.abspath(__file__))

# A byte is read and written, and an array made and abandoned.
FRESH = '''
    in r1
    out r1
    set r2, 5
    alloc r3, r2
    amend r3, r0, r1
    abandon r3
    halt'''

# Arrays are made and abandoned out of order, one identifier is taken again; then there is a byte of each left.
ARRAYS = '''
    in r1
    set r2, 3
    alloc r3, r2
    alloc r4, r0
    set r2, 2
    alloc r5, r2
    alloc r3, r2
    alloc r6, r0
    alloc r7, r2
    amend r7, r0, r1
    abandon r5
    abandon r3
    set r3, 1
    abandon r3
    alloc r3, r2
    amend r3, r0, r7
    abandon r4
    out r1
    index r1, r7, r0
    out r1
    alloc r4, r2
    alloc r5, r2
    in r1
    halt'''

# A copy of the scroll is made, and gone on in: there the machine halts.
LOADED = '''
    set r2, end
    alloc r3, r2
    set r1, 1
copy: index r5, r0, r4
    amend r3, r4, r5
    add r4, r4, r1
    nand r5, r4, r4
    add r5, r5, r1
    add r5, r5, r2
    set r6, start
    set r7, copy
    cmov r6, r7, r5
    add r7, r3, r0
    cmov r7, r0, r5
    load r7, r6
start: amend r0, r0, r6
    alloc r4, r1
    abandon r4
    halt
end: halt'''

# The same, and then an endless loop that reads a byte, makes and abandons arrays, and writes one.
SESSION = LOADED.replace('''
start: amend r0, r0, r6
    alloc r4, r1
    abandon r4
    halt''', '''
start: set r7, 0
    set r6, 4
    alloc r5, r6
turn: in r1
    add r7, r7, r1
    set r6, 3
    alloc r2, r6
    alloc r4, r6
    set r6, 1
    amend r2, r6, r7
    index r6, r5, r6
    add r7, r7, r6
    abandon r5
    abandon r4
    add r5, r2, r0
    set r4, 255
    nand r6, r7, r4
    nand r6, r6, r6
    out r6
    set r6, turn
    load r0, r6''')

OPERATORS = 'cmov index amend add mul div nand halt alloc abandon out in load'.split()


def words_of(text):
    """The words of an assembly text of the simplest kind."""
    lines = [re.match(r'\s*(?:(\w+):)?\s*(\w+)\s*(.*)', line).groups() for line in text.strip('\n').split('\n')]
    labels, words = {name: at for at, (name, _, _) in enumerate(lines) if name}, []
    for _, operator, rest in lines:
        parts = rest.replace(' ', '').split(',') if rest else []
        if operator == 'set':
            value = int(labels.get(parts[1], parts[1]))
            words.append(13 << 28 | int(parts[0][1]) << 25 | value)
            continue
        registers = [0, 0, 0] + [int(part[1]) for part in parts]
        a, b, c = registers[-3:]
        words.append(OPERATORS.index(operator) << 28 | a << 6 | b << 3 | c)
    return words


class Trial:
    def __init__(self, codex, folder):
        self.codex, self.folder, self.wrong = codex, folder, 0
        self.reached = collections.Counter()

    def path(self, name):
        return os.path.join(self.folder, name)

    def put(self, name, data):
        with open(self.path(name), 'wb') as file:
            file.write(data)

    def got(self, name):
        with open(self.path(name), 'rb') as file:
            return file.read()

    def asked(self, words, given=b''):
        ran = subprocess.run([self.codex] + words, cwd=self.folder, input=given, capture_output=True)
        return ran.stdout, ran.stderr.decode('latin-1'), ran.returncode

    def same(self, what, came, wanted):
        if came != wanted:
            self.wrong += 1
            print('%s: %r, not %r' % (what, came, wanted))

    def saved(self, name, text, cycles, given):
        """The image of a machine after so many cycles, compared with the one that is due."""
        machine = Machine(words_of(text))
        self.put('scroll', struct.pack('>%dI' % len(machine.arrays[0]), *machine.arrays[0]))
        out, _, status = machine.run(cycles, given)
        came = self.asked(['save', 'scroll', str(cycles), 'image'], given)
        self.same('save of ' + name, came, (out, '', 0))
        self.same('image of ' + name, self.got('image').hex(), machine.image().hex())
        return machine.image()

    def resumed(self, what, data, cycles, given):
        machine, place = machine_of(data)
        if machine is None:
            wanted = (b'', 'refused 82 BadImage %d\n' % place, 1)
            self.reached['BadImage'] += 1
        elif wants_much(machine, cycles, given):
            return
        else:
            machine, _ = machine_of(data)
            out, line, status = machine.run(cycles, given)
            wanted = (out, line + '\n' if line else '', status)
            self.reached[line.split(' ')[0] or 'halted'] += 1
        self.put('image', data)
        self.same(what + ' ' + data.hex()[:2000], self.asked(['resume', 'image', str(cycles)], given), wanted)


def wants_much(machine, cycles, given):
    """Would this run make an array of more than a megabyte?"""
    for _ in range(cycles):
        machine.run(1, given)
        if machine.words > 1 << 18:
            return True
    return False


def changed(random, data, others):
    words = list(struct.unpack('>%dI' % (len(data) // 4), data))
    for _ in range(random.choice([1, 1, 1, 2, 3])):
        change_words(random, words, others)
    data = bytearray(struct.pack('>%dI' % len(words), *words))
    kind = random.randrange(12)
    if kind == 0 and data:
        data[random.randrange(len(data))] ^= 1 << random.randrange(8)
    elif kind == 1:
        del data[random.randrange(len(data) + 1):]
    elif kind == 2:
        data += bytes(random.randrange(1, 9))
    return bytes(data)


def change_words(random, words, others):
    if not words:
        return
    # most of an image is behind its head, but most rules are in the head and the lengths
    at = random.choice([random.randrange(len(words)), random.randrange(min(22, len(words))),
                        random.randrange(len(words))])
    kind = random.randrange(10)
    if kind == 0:
        del words[at:at + random.randint(1, 3)]
    elif kind == 1:
        words.insert(at, random.choice([0, 1, 2, words[at]]))
    elif kind == 2:
        other = random.randrange(len(words))
        words[at], words[other] = words[other], words[at]
    elif kind == 3:
        end = at + random.randint(1, 6)
        words[at:end] = random.choice(others)[at:end]
    elif kind == 4:
        words[at] = random.choice([MOST_ARRAYS, MOST_ARRAYS + 1, MOST_WORDS, MOST_WORDS + 1, 1 << 30, (1 << 30) + 1,
                                   0xffffffff, MOST_WORDS - words[at] & 0xffffffff])
    elif kind in (5, 6):
        words[at] = words[at] + random.choice([-2, -1, 1, 2]) & 0xffffffff
    else:
        words[at] = random.choice([0, 1, 2, 3, 4, 5, words[random.randrange(len(words))]])


def small(trial, changes, seed):
    given = b'xyz'
    good = [('a fresh machine', trial.saved('a fresh machine', FRESH, 0, given)),
            ('arrays', trial.saved('arrays', ARRAYS, 18, given)),
            ('a loaded machine', trial.saved('a loaded machine', LOADED, 1000, given))]
    cuts = 0
    for name, data in good:
        trial.resumed(name, data, 40, given)
        for length in range(len(data)):
            trial.resumed('%s cut to %d:' % (name, length), data[:length], 40, given)
            cuts += 1
    words = [list(struct.unpack('>%dI' % (len(data) // 4), data)) for _, data in good]
    for number in range(changes):
        chance = random.Random('%d images %d' % (seed, number))
        name, data = good[number % 3]
        trial.resumed('%s changed, %d:' % (name, number), changed(chance, data, words), chance.choice([0, 1, 40]), given)
    told = ', '.join('%s %d' % pair for pair in sorted(trial.reached.items()))
    print('images: 3 machines, %d cuts, %d changes of seed %d; %s' % (cuts, changes, seed, told))


def long(trial, name, scroll, given, cuts, whole):
    """A run of so many cycles, cut at each of these: the image of each cut, and what comes after it."""
    trial.put('long', scroll)
    machine = Machine(struct.unpack('>%dI' % (len(scroll) // 4), scroll))
    run = trial.asked(['run', 'long', str(whole)], given)
    before = b''
    for cut in cuts:
        before += machine.run(cut - machine.cycles, given)[0]
        came = trial.asked(['save', 'long', str(cut), 'image'], given)
        trial.same('%s: save %d' % (name, cut), came, (before, '', 0))
        if trial.got('image') != machine.image():
            trial.wrong += 1
            print('%s: the image after %d cycles differs' % (name, cut))
        out, line, status = trial.asked(['resume', 'image', str(whole - cut)], given)
        line = line.replace('budget %d ' % (whole - cut), 'budget %d ' % whole)
        if (before + out, line, status) != run:
            trial.wrong += 1
            print('%s: cut at %d it ends with %d bytes, %r, %d, and not %d bytes, %r, %d' % (
                name, cut, len(before + out), line, status, len(run[0]), *run[1:]))
    print('%s: %d cycles, cut at %d places; %d bytes, status %d' % (name, whole, len(cuts), len(run[0]), run[2]))


def main():
    changes, seed = (list(map(int, sys.argv[2:])) + [2000, 1][len(sys.argv) - 2:])[:2]
    with tempfile.TemporaryDirectory() as folder:
        trial = Trial(os.path.abspath(sys.argv[1]), folder)
        small(trial, changes, seed)
        chance = random.Random(seed)
        given = bytes(chance.randrange(256) for _ in range(3000))
        cuts = sorted(chance.sample(range(1, 1000000), 20))
        session = words_of(SESSION)
        long(trial, 'a session', struct.pack('>%dI' % len(session), *session), given, cuts, 1000000)
        with open(os.path.join(HERE, '..', 'conformance', 'reuse.um'), 'rb') as file:
            long(trial, 'reuse.um', file.read(), b'', cuts, 2000000)
    print('save and resume: %d differ' % trial.wrong)
    sys.exit(1 if trial.wrong else 0)


if __name__ == '__main__':
    main()
