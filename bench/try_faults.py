"""Tries `codex check` on drawings with a few bytes changed, and on programs that are none, and compares the first fault and
its place with grid.py. Of a command that is none, it compares the number alone.

    try_faults.py CODEX [DRAWINGS [SEED]]
"""
import collections
import os
import random
import subprocess
import sys
import tempfile

import layouts
from grid import NoProgram, program
from programs import typed_program

NAMES = {1: 'TooLong', 2: 'BadByte', 3: 'LineTooLong', 4: 'OpenFrame', 5: 'FramesMeet', 6: 'TwoEntries', 7: 'NoName',
         8: 'OpenBox', 9: 'BoxesMeet', 10: 'BadCommand', 11: 'TwoPorts', 12: 'BrokenWire', 13: 'BadTurn', 14: 'Merge',
         15: 'Stray', 16: 'SameName', 17: 'NoMain', 18: 'MainHasInput', 19: 'NoModule', 20: 'BadInputs', 21: 'Unwired',
         22: 'Cycle', 24: 'TooDeep'}
MARKS = b' -|+#*=!,.:\'v>()[]NWSE\r\x7f\n'


def changed_bytes(random, text):
    """Some bytes changed, mostly ones that aren't spaces, and mostly to what wires and borders are made of."""
    for _ in range(random.choice([1, 1, 1, 2, 3])):
        at = random.randrange(len(text))
        for _ in range(6):
            if text[at] in b' \n.:=':
                at = random.randrange(len(text))
        kind = random.randrange(9)
        if kind < 6:
            text[at] = random.choice(MARKS if random.random() < 0.3 else b' -|+#+#v>')
        elif kind == 6:
            del text[at]
        elif kind == 7:
            text.insert(at, random.choice(MARKS))
        else:
            other = random.randrange(len(text))
            text[at], text[other] = text[other], text[at]


def changed_cells(random, text):
    """A mark beside a box, or a crossing of wires that becomes a turn with one of its neighbours gone."""
    lines = [bytearray(line) for line in text.split(b'\n')]
    marks = b'#' if b'#' in text and random.random() < 0.5 else b'=!'
    cells = [(r, c) for r, line in enumerate(lines) for c, mark in enumerate(line) if mark in marks]
    if not cells:
        return bytes(text)
    row, col = random.choice(cells)
    if marks == b'#':
        lines[row][col] = ord('+')
    down, right = random.choice([(-1, 0), (1, 0), (0, -1), (0, 1)])
    row, col = row + down, col + right
    if 0 <= row < len(lines) and 0 <= col < len(lines[row]):
        lines[row][col] = ord(' ') if marks == b'#' else random.choice(b'v>|-')
    return b'\n'.join(lines)


def changed_modules(random, modules):
    """A program with one thing that may be wrong: a name, an entry, a use, an input, or where a wire comes from."""
    modules = list(modules)
    i = random.randrange(len(modules))
    module = modules[i]
    kind = random.randrange(6)
    if kind == 0:
        name = random.choice([m.name for m in modules] + ['other'])
        modules = [m._replace(name=module.name) if m.name == name else m for m in modules]
        if random.random() < 0.7:
            modules[i] = module._replace(name=name)
    elif kind == 1:
        modules.append(random.choice(modules))
    elif not module.boxes:
        return modules
    else:
        boxes = list(module.boxes)
        b = random.randrange(len(boxes))
        box = boxes[b]
        other = random.randrange(len(boxes))
        if kind == 2:
            boxes[b] = box._replace(command=('use', random.choice([m.name for m in modules] + ['other'])))
        elif kind == 3:
            boxes[b] = box._replace(n=None) if random.random() < 0.5 else box._replace(w=None)
        else:
            boxes[b], boxes[other] = boxes[b]._replace(n=boxes[other].n), boxes[other]._replace(n=box.n)
            boxes[b], boxes[other] = boxes[b]._replace(command=boxes[other].command), boxes[other]._replace(
                command=box.command)
        modules[i] = module._replace(boxes=boxes)
    return modules


def fault_case(random, number):
    modules, _ = typed_program(random)
    if number % 4 == 0 and sum(len(m.boxes) for m in modules) <= 6:
        text = bytearray(layouts.tangled(random, modules)[1])
    elif number % 4 == 1:
        for _ in range(random.randint(1, 3)):
            modules = changed_modules(random, modules)
        return layouts.loose(random, modules)
    else:
        text = bytearray(layouts.loose(random, modules))
    if number % 8 < 4:
        return changed_cells(random, text)
    changed_bytes(random, text)
    return bytes(text)


def wanted(text):
    try:
        modules = program(text)
    except NoProgram as fault:
        number, place = fault.args[0], fault.args[1:]
        return 'refused %d %s%s\n' % (number, NAMES[number], ' at %d:%d' % place if place else ''), 1
    return 'ok %d %d\n' % (len(modules), sum(len(m.boxes) for m in modules)), 0


def main():
    count, seed = (list(map(int, sys.argv[2:])) + [2000, 1][len(sys.argv) - 2:])[:2]
    codex, reached, wrong = os.path.abspath(sys.argv[1]), collections.Counter(), 0
    with tempfile.TemporaryDirectory() as folder:
        for number in range(count):
            text = fault_case(random.Random('%d faults %d' % (seed, number)), number)
            with open(os.path.join(folder, 'file'), 'wb') as file:
                file.write(text)
            ran = subprocess.run([codex, 'check', 'file'], cwd=folder, stdin=subprocess.DEVNULL, capture_output=True)
            line, status = wanted(text)
            came = (ran.stderr if status else ran.stdout).decode('latin-1'), ran.returncode
            reached[line.split()[2] if status else 'ok'] += 1
            without_place = line.startswith(('refused 10 ', 'refused 24 '))
            if came != (line, status) and not (without_place and came[0].startswith(line[:-1])):
                wrong += 1
                print('case %d of seed %d: %r, not %r\n%s' % (number, seed, came, line, text.decode('latin-1')))
    told = ', '.join('%s %d' % pair for pair in sorted(reached.items()))
    print('check: %d drawings of seed %d, %d differ; %s' % (count, seed, wrong, told))
    sys.exit(1 if wrong else 0)


if __name__ == '__main__':
    main()
