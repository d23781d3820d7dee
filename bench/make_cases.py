"""Makes the tables of bench/cases/, which the gate tries on ./codex and ./explain: types.txt, of drawings and sheets,
images.txt, of changed images, and pages.txt, of a page for each fault of a drawing. The answers are those of sheets.py,
images.py and pages.py.

    make_cases.py FOLDER
"""
import collections
import glob
import os
import random
import struct
import sys

import layouts
import pages
import sheets
from grid import program
from images import Machine, machine_of
from try_faults import wanted
from try_images import ARRAYS, FRESH, LOADED, changed, words_of
from try_types import sheet_case

HERE = os.path.dirname(os.path.abspath(__file__))
EACH = 6


def types():
    """Blocks: a line `= ANSWER`, the drawing, a line `--`, and the sheet; EACH of each answer, the shortest of many."""
    found = collections.defaultdict(list)
    for number in range(6000):
        chance = random.Random('cases %d' % number)
        modules, sheet = sheet_case(chance)
        drawing, _ = layouts.drawing(modules)
        if drawing is None or len(sheet) > 600 or b'\r' in sheet or b'\t' in sheet or not sheet.endswith(b'\n'):
            continue
        if any(row.startswith((b'=', b'--')) or row != row.strip() for row in sheet.split(b'\n')):
            continue
        assert program(drawing) == modules
        line, status = sheets.answer(modules, sheet)
        kind = ' '.join(line.split()[:3]) if status else 'typed'
        found[kind].append((len(drawing) + len(sheet), line.strip(), drawing.decode(), sheet.decode()))
    for kind in sorted(found):
        for _, line, drawing, sheet in sorted(found[kind])[:EACH]:
            yield '= %s\n%s--\n%s' % (line, drawing, sheet)


def octal(data):
    return ''.join('\\%03o' % byte for byte in data)


def images():
    """Rows: what `resume IMAGE 0` says, and the image's bytes in the form that printf takes."""
    good = []
    for text, cycles in ((FRESH, 0), (ARRAYS, 18), (LOADED, 1000)):
        machine = Machine(words_of(text))
        machine.run(cycles, b'xyz')
        good.append(machine.image())
    words = [list(struct.unpack('>%dI' % (len(data) // 4), data)) for data in good]
    rows, places = [], set()
    for data in good:
        rows.append(data)
    for number in range(4000):
        chance = random.Random('images %d' % number)
        data = changed(chance, good[number % 3], words)
        machine, place = machine_of(data)
        key = (number % 3, 'good' if machine else place)
        if key not in places and len(rows) < 60:
            places.add(key)
            rows.append(data)
    for data in rows:
        machine, place = machine_of(data)
        if machine is None:
            said = 'refused 82 BadImage %d' % place
        else:
            said = '' if machine.halted else 'budget 0 cycles'
        yield '%s|%s\n' % (said, octal(data))


def fault_pages():
    """Blocks: a line `= FILE` and its page; for each fault the smallest drawing that docs/GRID.md shows for it."""
    lines = {}
    with open(os.path.join(HERE, '../docs/GRID.md'), encoding='utf-8') as file:
        for line in file:
            if line.startswith('    refused '):
                lines.setdefault(line.split()[1], line.strip())
    found = {}
    for path in sorted(glob.glob(os.path.join(HERE, '../crates/codex_examples/data/grid_*.grid'))):
        with open(path, 'rb') as file:
            text = file.read()
        line = wanted(text)[0].strip()
        kind = line.split()[1]
        if line.startswith('refused') and (kind not in found or len(text) < len(found[kind][1])):
            line = lines[kind] if kind in ('10', '24') else line
            found[kind] = line, text, os.path.basename(path)
    found['1'] = 'refused 1 TooLong', b' ' * 262145, '262145 bytes'
    found['3'] = 'refused 3 LineTooLong at 1:4097', b' ' * 4097 + b'\n', '4097 columns'
    for kind in sorted(found, key=int):
        line, text, name = found[kind]
        yield '= %s\n%s' % (name, pages.page(line, text))


def main():
    for name, rows in (('types.txt', types()), ('images.txt', images()), ('pages.txt', fault_pages())):
        with open(os.path.join(sys.argv[1], name), 'w') as file:
            file.writelines(rows)


if __name__ == '__main__':
    main()
